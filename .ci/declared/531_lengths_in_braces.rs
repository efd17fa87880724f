use serde::{Deserialize, Serialize};

const NAME: usize = 3;
const WIDE: u64 = 0x1_0000_0002 >> 32;

#[derive(Serialize, Deserialize)]
pub struct Buffer<const N: usize, T = u8>([T; N]);

#[derive(Serialize, Deserialize)]
pub struct Lengths {
    pub a: [u8; { 2 * NAME }],
    pub b: Buffer<{ NAME - 1 }, u8>,
    pub c: heapless::Vec<u8, { NAME + 1 }>,
    pub d: heapless::String<{ NAME }>,
    pub e: [Buffer<NAME, bool>; (1 + NAME) % 3],
    pub f: [u8; WIDE as usize],
    pub g: [u8; 7_usize / 2 << 1 >> 2],
    pub h: [u8; 20 - 2 * 3 - 10 / 5 - 0b1010 as usize],
}
