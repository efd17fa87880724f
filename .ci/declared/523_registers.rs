//! Registers of a controller: the counts are `u16`, as on its bus.
use serde::{Deserialize, Serialize};

pub const FIRST: u16 = 0x10;
pub const LAST: u16 = 0x13;
pub const COUNT: u16 = LAST - FIRST + 1;
pub const COILS: u8 = 9;

#[derive(Serialize, Deserialize)]
pub struct Holding { pub at: u16, pub values: [u16; COUNT as usize] }

#[derive(Serialize, Deserialize)]
pub struct Coils { pub bits: [u8; (COILS as usize + 7) / 8], pub count: u8 }

#[derive(Serialize, Deserialize)]
pub enum Answer { Holding(Holding), Coils(Coils), Exception { function: u8, code: Exception } }

#[derive(Serialize, Deserialize)]
pub enum Exception { IllegalFunction = 1, IllegalAddress = 2, Busy = 6 }
