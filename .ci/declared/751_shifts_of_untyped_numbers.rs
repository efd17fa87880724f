use serde::{Deserialize, Serialize};

/// Of `i32`, whose highest bit is its sign: 2 bytes.
#[derive(Serialize, Deserialize)]
pub struct Window {
    pub samples: [u8; ((1 << 31 >> 28) + 10) as usize],
}

/// What a shift is by has a type of its own: 4 bytes.
#[derive(Serialize, Deserialize)]
pub struct Table {
    pub rows: [u8; 1 << ((1 << 31 >> 28) + 10)],
}

#[derive(Serialize, Deserialize)]
pub struct Sample {
    pub low: [u8; ((1 << 12) - 4000) as usize],
    pub high: [u8; 1 << (1 << 2)],
    pub wide: [u8; (1u64 << 40 >> 38) as usize],
}
