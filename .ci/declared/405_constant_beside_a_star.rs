mod real { pub const CHANNELS: usize = 4; }
use real::*;
#[cfg(feature = "bench")]
const CHANNELS: usize = 8;
// message
struct A { a: [u8; CHANNELS] }
