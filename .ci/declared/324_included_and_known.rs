include!(concat!(env!("OUT_DIR"), "/constants.rs"));
use heapless::String;
// message
struct A { s: String<8>, o: Option<u8>, n: u16 }
