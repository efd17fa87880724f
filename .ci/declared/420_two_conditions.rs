#[cfg(feature = "x")]
type Id = u16;
#[cfg(not(feature = "x"))]
type Id = u32;
// message
struct A(Id);
