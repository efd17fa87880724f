mod p { type u8 = u16; pub type u16 = u32; }
use p::*;
// message
struct A(u8, u16);
