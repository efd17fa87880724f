mod Types { pub type u8 = u32; }
use Types::*;
// message
struct A(u8);
