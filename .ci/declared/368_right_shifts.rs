use serde::{Deserialize, Serialize};
pub const HALF: usize = 16 >> 1;
#[derive(Serialize, Deserialize)]
pub struct A { pub a: [u8; 16 >> 1], pub b: u8 }
#[derive(Serialize, Deserialize)]
pub struct B { pub a: heapless::Vec<u8, { 12 >> 1 }>, pub b: [u8; HALF], pub c: Option<Option<u8>> }
#[derive(Serialize, Deserialize)]
pub struct C { pub a: [u8; 64 >> 2 + 1 << 1], pub b: bool }
#[derive(Serialize, Deserialize)]
pub struct D(pub [[u8; 8 >> 1]; 8 >> 2], pub Option<u8>);
#[derive(Serialize, Deserialize)]
pub struct E { pub a: [Vec<Vec<u8>>; 7 >> 2], pub b: [u8; (0xFF >> 4) - 3 * (4 >> 1)], pub c: [u8; 1 >> 63] }
