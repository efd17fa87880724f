// One name however its letters are put together, also where it hides another.
mod m {
    // message
    pub struct K(pub [u8; 1]);
    // message
    pub struct Å(pub [u8; 2]);
    // message
    pub struct Ω(pub [u8; 3]);
    // message
    pub struct 한(pub [u8; 4]);
}
use m::K;
// message
struct Used(K, m::Å, m::Ω, m::한);
// message
struct ạ̇([u8; 5]);
fn body() {
    // message
    struct ạ̇([u8; 6]);
    // message
    struct Inside(ạ̇);
}
mod é {
    // message
    pub struct A(pub [u8; 7]);
}
mod other {
    pub mod é {
        // message
        pub struct A(pub [u8; 8]);
    }
}
use other::*;
// message
struct Beside(é::A);
