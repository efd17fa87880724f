pub mod limits { pub mod radio { pub const MTU: usize = 32; } pub use radio::MTU as RADIO_MTU; }
use limits::radio;
// message
pub struct Frame { body: heapless::Vec<u8, { radio::MTU }>, tail: [u8; limits::radio::MTU / 4] }
