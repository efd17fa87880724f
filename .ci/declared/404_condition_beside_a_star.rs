mod real { pub type Stamp = u32; }
use real::*;
#[cfg(test)] type Stamp = (u8, u8);
// message
struct A { at: Stamp, n: u8 }
