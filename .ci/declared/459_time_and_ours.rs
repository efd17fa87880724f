mod clock {
    // message
    pub struct Duration(pub u16);
}
mod other { pub type X = u8; }
mod a {
    use core::time::*;
    use super::other::*;
    // message
    pub struct A { d: Duration, x: X }
}
