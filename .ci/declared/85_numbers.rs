#[derive(Serialize, Deserialize)]
#[repr(u8)]
pub enum E { A = 1 << 3, B = Self::X as u8, C(u8) = { 7 }, D { x: [u8; 2] } = b',', E }
