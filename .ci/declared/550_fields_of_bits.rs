use bilge::prelude::*;
use serde::{Deserialize, Serialize};

#[bitsize(16)]
#[derive(FromBits, Serialize, Deserialize)]
pub struct Control { speed: u10, mode: u4, on: bool, reverse: bool }

#[enumflags2::bitflags]
#[repr(u8)]
#[derive(Copy, Clone, Serialize, Deserialize)]
pub enum Fault { Hot = 0b0001, Cold = 0b0010 }
