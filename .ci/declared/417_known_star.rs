mod x {
    // message
    pub struct Level(u8);
}
use heapless::*;
use x::*;
// message
struct A(Vec<u8, 4>, Level);
