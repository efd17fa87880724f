#[cfg(feature = "small")]
type Id = u16;
#[cfg(not(feature = "small"))]
use other::Id;
// message
struct A(Id);
