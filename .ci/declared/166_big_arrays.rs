use serde_big_array::BigArray;
#[derive(Serialize, Deserialize)]
pub struct T { #[serde(with = "BigArray")] pub a: [u8; 32], #[serde(with = "serde_big_array::BigArray")] pub b: [u16; 33], #[serde(with = "serde_arrays")] pub c: [u8; 2], pub d: serde_big_array::Array<u8, 65> }
