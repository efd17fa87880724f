pub const BASE: usize = 4;
pub const TOTAL: usize = BASE * 2;
#[derive(Serialize, Deserialize)]
pub struct A { pub a: [u8; TOTAL], pub b: [u8; u8::MAX as usize], pub c: heapless::Vec<u8, { BASE * 2 }>, pub d: [u8; BASE as usize] }
