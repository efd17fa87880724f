use serde::{Deserialize, Serialize};

#[derive(Serialize, Deserialize)]
pub struct A {
    #[serde(with = "::serde_big_array::BigArray")]
    pub a: [u8; 40],
    #[serde(with = "::serde_arrays")]
    pub b: [u16; 33],
}
