mod device { pub type u8 = u16; }
#[cfg(feature = "device")]
use device::*;
// message
struct A(u8);
