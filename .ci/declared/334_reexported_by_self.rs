pub use self::inner::*;
pub mod inner {
    pub use self::deep::{Deep as Renamed, *};
    pub mod deep {
        // message
        pub struct Deep(pub u8);
        pub const N: usize = 2;
    }
}
// message
pub struct A { a: Deep, b: Renamed, c: [Deep; N], d: inner::Renamed, e: crate::inner::deep::Deep }
