mod x { pub type Level = u8; }
use other_crate::Level;
// message
struct A(Level);
