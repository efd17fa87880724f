mod inner { pub type Level = u8; }
// message
struct A(super::Level);
