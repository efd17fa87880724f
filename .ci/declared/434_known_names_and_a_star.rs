mod x {
    // message
    pub struct String(u8);
}
use x::*;
// message
struct A { s: String }
