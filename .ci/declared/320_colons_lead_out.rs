mod heapless {
    pub struct String;
}
use ::heapless::Vec;
// message
struct A { s: ::heapless::String<8>, v: Vec<u8, 2> }
