mod limits { pub const MAX: u8 = 4; }
mod a {
    use core::u8::MAX;
    use super::limits::*;
    // message
    pub struct A { n: [u8; MAX as usize] }
}
