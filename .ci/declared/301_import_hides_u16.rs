mod wide { pub type Wide = u32; }
use wide::Wide as u16;
// message
struct A(u16);
