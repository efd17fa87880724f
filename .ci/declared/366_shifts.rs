use serde::{Deserialize, Serialize};
pub const TWICE: usize = 4 << 1;
#[derive(Serialize, Deserialize)]
pub struct A { pub a: [u8; 1 << 3], pub b: u8 }
#[derive(Serialize, Deserialize)]
pub struct B { pub a: [u8; 1 << 2], pub b: u16 }
#[derive(Serialize, Deserialize)]
pub struct C { pub a: heapless::Vec<u8, { 3 << 1 }>, pub b: [u8; TWICE], pub c: Option<Option<u8>> }
#[derive(Serialize, Deserialize)]
pub struct D { pub a: [u8; 1 + 2 << 1 - 1], pub b: bool }
#[derive(Serialize, Deserialize)]
pub struct E(pub [[u8; 1 << 1]; 1 << 1], pub Option<u8>);
