//! Derives of another crate that are called as serde's are, by other names.
use rkyv::{Archive, Deserialize as RkyvDeserialize, Serialize as RkyvSerialize};
use serde::{Deserialize, Serialize};

#[derive(Archive, RkyvDeserialize, RkyvSerialize, Deserialize, Serialize)]
#[rkyv(derive(Debug))]
pub struct Sample {
    pub level: u8,
    pub at: u16,
    pub last: Mark,
}

#[derive(Archive, RkyvDeserialize, RkyvSerialize, Deserialize, Serialize)]
pub struct Mark(pub u16);

#[derive(Archive, RkyvSerialize)]
pub struct Stored {
    pub at: u64,
}
