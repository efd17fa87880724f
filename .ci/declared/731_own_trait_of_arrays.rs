//! A trait of the file's own, called as that of the crate `serde_big_array`, which sends the count too.
use serde::{Serialize, Serializer};

trait BigArray {
    fn serialize<S: Serializer>(&self, to: S) -> Result<S::Ok, S::Error>;
}

impl<const N: usize> BigArray for [u8; N] {
    fn serialize<S: Serializer>(&self, to: S) -> Result<S::Ok, S::Error> {
        to.serialize_bytes(self)
    }
}

#[derive(Serialize)]
pub struct Block {
    pub at: u16,

    #[serde(with = "BigArray")]
    pub data: [u8; 40],
}
