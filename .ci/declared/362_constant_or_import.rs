#[cfg(feature = "small")]
const N: usize = 2;
#[cfg(not(feature = "small"))]
use crate::limits::N;
mod limits { pub const N: usize = 4; }
// message
struct A([u8; N]);
