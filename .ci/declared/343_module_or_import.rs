#[cfg(feature = "a")]
mod imp {
    // message
    pub struct Size(pub u8);
}
#[cfg(not(feature = "a"))]
use other::imp;
// message
struct A(imp::Size);
