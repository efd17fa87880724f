use serde::{Deserialize, Serialize};
pub const N: usize = 2;
pub const M: usize = N * 2;
pub const K: usize = N << 1;
pub const fn twice(n: usize) -> usize { n * 2 }
#[derive(Serialize, Deserialize)]
pub struct D { pub a: [u8; twice(N)] }
#[derive(Serialize, Deserialize)]
pub struct E { pub a: [u8; core::mem::size_of::<u32>()] }
#[derive(Serialize, Deserialize)]
pub struct I { pub a: [u8; Self::N] }
