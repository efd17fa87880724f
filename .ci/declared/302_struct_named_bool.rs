// message
pub struct bool(pub u16);
// message
struct A { on: bool, off: core::primitive::bool }
