mod uplink {
    #[derive(serde::Serialize, serde::Deserialize)]
    pub struct Frame { a: u8, b: u8 }
}
mod downlink {
    #[derive(serde::Serialize, serde::Deserialize)]
    pub struct Frame { a: u8, b: u32 }
}
#[derive(serde::Serialize, serde::Deserialize)]
struct Both { up: uplink::Frame, down: self::downlink::Frame }
