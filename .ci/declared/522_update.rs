use serde::{Deserialize, Serialize};
use serde_big_array::BigArray;

pub const DIGEST: usize = 256 / u8::BITS as usize;

#[derive(Serialize, Deserialize)]
pub struct Manifest {
    pub version: (u16, u16, u16),
    pub digest: [u8; DIGEST],
    #[serde(with = "BigArray")]
    pub signature: [u8; DIGEST * 2],
    pub depends: Option<Box<Manifest>>,
}

#[derive(Serialize, Deserialize)]
#[serde(rename_all = "snake_case", rename_all_fields = "kebab-case")]
pub enum Step {
    Begin(Box<Manifest>),
    Block { block_number: u32, #[serde(with = "serde_bytes")] bytes: Vec<u8> },
    Finish,
    Abort { why: Abort },
}

#[derive(Serialize, Deserialize)]
pub enum Abort { User, Power { millivolts: u16 }, Signature }
