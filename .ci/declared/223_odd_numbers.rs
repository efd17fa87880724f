use serde::{Deserialize, Serialize};
use std::num::Wrapping;
#[derive(Serialize, Deserialize)]
pub struct A { pub a: u128, pub b: i128, pub c: char, pub d: (), pub e: [(); 3], pub f: [bool; 4], pub w: Wrapping<u16> }
