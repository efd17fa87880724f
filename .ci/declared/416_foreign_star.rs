mod x { pub type Level = u8; }
use other_crate::*;
// message
struct A(Level);
