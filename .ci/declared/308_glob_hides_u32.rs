mod device { pub type u32 = u16; }
use device::*;
// message
struct A(u32);
