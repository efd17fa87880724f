use crate::levels::Level;
// message
struct A(Level);
mod other { pub type Level = u8; }
