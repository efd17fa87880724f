// Names that every file has, and modules called as known crates, which mean what these files declare.
// message
pub struct Byte([u8; 1]);
mod kind {
    // message
    pub struct u8(pub [::core::primitive::u8; 3]);
    // message
    struct OfOwn(u8, [u8; 2], ::core::primitive::u8);
}
mod named {
    use super::kind::u8;
    // message
    struct ByUse(u8, core::primitive::u8);
}
mod module {
    mod u8 {
        pub const MAX: usize = 4;
    }
    // message
    struct BesideModule(u8, [u8; u8::MAX]);
}
mod alias {
    type u8 = bool;
    use core::primitive::{bool as u16, u8 as Octet};
    // message
    struct OfAlias(u8, u16, [Octet; 3]);
}
// message
pub struct Option<T>(T, T);
mod option {
    use super::Option;
    // message
    struct OfOption(Option<u8>, ::core::option::Option<u8>);
}
mod std {
    pub mod option {
        // message
        pub struct Option<T>(pub [T; 5]);
    }
    pub mod u16 {
        pub const MAX: usize = 6;
    }
}
// message
struct OfStd(std::option::Option<u8>, [u8; std::u16::MAX]);
mod heapless {
    // message
    pub struct Vec<T, const N: usize>(pub [T; N], pub [T; 7]);
}
use heapless::Vec;
// message
struct OfHeapless(Vec<u8, 3>, heapless::Vec<bool, 2>);
mod inner {
    use crate::heapless::Vec;
    // message
    struct Inside(Vec<u8, 4>);
}
