mod limits { pub const MAX: usize = 4; }
mod a {
    use core::u8::*;
    // message
    pub struct A { n: [u8; MAX as usize] }
}
