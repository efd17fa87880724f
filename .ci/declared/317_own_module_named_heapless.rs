mod heapless {
    // message
    pub struct String { pub length: u8 }
}
// message
struct A { s: heapless::String }
