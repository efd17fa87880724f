use serde::{Deserialize, Serialize};

const HISTORY: u8 = u8::MAX / 0x55;
const BITS: u32 = u64::BITS - u32::BITS;
const MOST: usize = core::i8::MAX as usize / 40;

#[derive(Serialize, Deserialize)]
pub struct Sizes {
    pub table: Box<[u8; u8::MAX as usize + 1]>,
    pub history: [bool; HISTORY as usize],
    pub nibbles: [u8; (BITS / 8) as usize],
    pub most: [u8; MOST],
    pub words: [u16; i16::BITS as usize / 8],
}
