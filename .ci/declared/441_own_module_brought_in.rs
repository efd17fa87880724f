mod heapless {
    // message
    pub struct String(u8);
}
use heapless::String;
// message
struct A(String);
