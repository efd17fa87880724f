use serde::{Deserialize, Serialize};
use serde_big_array::BigArray;
#[derive(Serialize, Deserialize)]
pub struct A { #[serde(with = "BigArray")] pub a: [bool; 40], #[serde(with = "serde_big_array::BigArray")] pub b: [u16; 33] }
#[derive(Serialize, Deserialize)]
pub struct B { pub a: [u8; 33] }
