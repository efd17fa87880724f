#![cfg_attr(not(test), no_std)]
use serde::{Deserialize, Serialize};

pub const PAGE: usize = 1 << 8;
const CHUNK: usize = PAGE / 2 - 8;

#[derive(Debug, Serialize, Deserialize)]
#[non_exhaustive]
#[repr(u8)]
pub enum Request<'a> {
    Info = 0x01,
    Erase { first_page: u16, pages: u16 } = 0x10,
    #[serde(borrow)]
    Write(Chunk<'a>) = 0x11,
    Verify { digest: [u8; 32] } = 0x12,
    Boot = 0x7f,
}

#[derive(Debug, Serialize, Deserialize)]
pub struct Chunk<'a> {
    pub at: u32,
    #[serde(borrow, with = "serde_bytes")]
    pub data: &'a [u8],
}

#[derive(Debug, Serialize, Deserialize)]
pub struct OwnedChunk {
    pub at: u32,
    pub data: heapless::Vec<u8, CHUNK>,
}

#[derive(Debug, Serialize, Deserialize)]
pub enum Response {
    Info(Version),
    Done,
    Failed(Reason),
}

#[derive(Debug, Serialize, Deserialize)]
pub struct Version(pub u8, pub u8, pub u16);

#[derive(Debug, Serialize, Deserialize)]
pub enum Reason {
    Locked,
    Range,
    Crc { wanted: u32, got: u32 },
}
