use heapless::{String, Vec};
#[derive(Serialize, Deserialize)]
struct T { a: Vec<u8, 200, u8>, b: String<16, u8>, c: core::num::Saturating<u16>, d: Reverse<bool> }
