mod a { pub mod v1 { pub type Config = u8; } }
mod b { pub mod v1 { pub type Config = u16; } }
use a::*;
// message
struct A { c: b::v1::Config }
