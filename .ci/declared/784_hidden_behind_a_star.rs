// What a `use` by name reaches through a `*`, but doesn't see, is left to another `*`.
mod parts {
    // message
    struct Level { raw: [u8; 1] }
    #[allow(non_snake_case)]
    pub fn Level() {}
    const COUNT: usize = 2;
    #[allow(non_camel_case_types)]
    pub enum COUNT {}
}
mod inner {
    use crate::others::Gain;
    #[allow(non_snake_case)]
    pub fn Gain() {}
}
mod others {
    // message
    pub struct Gain { raw: [u8; 3] }
}
mod facade {
    pub use crate::parts::*;
    pub use crate::inner::*;
}
mod prelude {
    // message
    pub struct Level(pub [u8; 9]);
    // message
    pub struct Gain(pub [u8; 10]);
    pub const COUNT: usize = 11;
}
use facade::{COUNT, Gain, Level};
use prelude::*;

// message
struct Typed(Level);
// message
struct Counted([u8; COUNT]);
// message
struct Kept(Gain);
