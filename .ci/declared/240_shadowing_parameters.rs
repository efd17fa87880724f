use serde::{Deserialize, Serialize};
pub const N: usize = 9;
#[derive(Serialize, Deserialize)]
pub struct A<String, const N: usize> { pub s: String, pub n: [u8; N] }
#[derive(Serialize, Deserialize)]
pub struct Use { pub a: A<u16, 2>, pub b: [bool; N] }
