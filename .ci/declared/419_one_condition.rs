#[cfg(feature = "x")]
type Id = u16;
// message
struct A(Id);
