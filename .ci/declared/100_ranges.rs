#[derive(Serialize, Deserialize)]
struct T { r: core::ops::Range<u8> }
