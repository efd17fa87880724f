mod heapless {
    // message
    pub struct String(pub u16);
}
use heapless::*;
// message
struct A { s: String }
