pub mod v1 {
    // message
    pub struct Header { pub len: u8 }
    // message
    pub struct Packet { pub header: Header, pub crc: super::Crc }
}
pub mod v2 {
    // message
    pub struct Header { pub len: u16 }
    // message
    pub struct Packet { pub header: Header, pub old: super::v1::Header }
}
pub type Crc = u32;
