mod p { pub type u8 = u16; }
mod q { pub type u8 = u32; }
use p::*;
use q::u8;
// message
struct A(u8);
