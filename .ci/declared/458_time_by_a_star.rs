mod clock {
    // message
    pub struct Duration(pub u16);
}
mod a {
    use core::time::*;
    // message
    pub struct A { d: Duration }
}
