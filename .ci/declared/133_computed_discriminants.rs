#[derive(serde::Serialize, serde::Deserialize)]
#[repr(i8)]
pub enum E { A = -1, B = 1 << 3, C = b'}' as i8, D = Self::BASE + 1, E = if cfg!(test) { 1 } else { 2 }, F = ('{' as u32) as i8 }
impl E { const BASE: i8 = 5; }
#[derive(serde::Serialize, serde::Deserialize)]
pub enum Data { A(u8) = 1, B { x: u16 } = 7, }
