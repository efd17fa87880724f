mod text {
    // message
    pub struct Vec { pub x: u8, pub y: u8 }
}
use text::*;
// message
struct A { at: Vec, list: std::vec::Vec<u16> }
