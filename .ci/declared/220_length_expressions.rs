use serde::{Deserialize, Serialize};
pub const N: usize = 2;
pub const M: usize = N * 2;
pub const K: usize = N << 1;
pub const fn twice(n: usize) -> usize { n * 2 }
#[derive(Serialize, Deserialize)]
pub struct A { pub a: [u8; N * 2] }
#[derive(Serialize, Deserialize)]
pub struct B { pub a: [u8; { N }] }
#[derive(Serialize, Deserialize)]
pub struct C { pub a: [u8; M] }
#[derive(Serialize, Deserialize)]
pub struct F { pub a: heapless::Vec<u8, { N + 1 }> }
#[derive(Serialize, Deserialize)]
pub struct G { pub a: [u8; (N)] }
#[derive(Serialize, Deserialize)]
pub struct H { pub a: [u8; u8::MAX as usize] }
#[derive(Serialize, Deserialize)]
pub struct J { pub a: [u8; K] }
