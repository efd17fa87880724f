use serde::{Deserialize, Serialize};
#[derive(Serialize, Deserialize)]
pub struct A { pub a: [u8; 16 >> 64], pub b: [u8; 6 & 4], pub c: u8 }
