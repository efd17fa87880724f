pub trait Frame { const SIZE: usize; type Body; }
pub struct Short;
impl Frame for Short { const SIZE: usize = 4; type Body = [u8; 4]; }
mod sizes { pub const SIZE: usize = 3; pub(crate) const DOUBLE: usize = SIZE * 2 + (1 << 2); }
use sizes::{DOUBLE, SIZE};
#[derive(serde::Serialize, serde::Deserialize)]
pub struct A { pub a: [u8; SIZE], pub b: [u8; DOUBLE - SIZE], pub c: [u8; sizes::SIZE], pub d: heapless::Vec<u8, { SIZE / 2 % 2 + 1 }> }
