mod heapless {
    // message
    pub struct Vec { pub x: u8 }
}
mod inner {
    use super::*;
    // message
    struct A { v: heapless::Vec }
}
