use serde::{Deserialize, Serialize};

pub enum Axis { X, Y, Z, COUNT }

#[derive(Serialize, Deserialize)]
pub struct Sample { pub axes: [i16; Axis::COUNT as usize] }

pub struct Limits;
impl Limits { pub const MOST: usize = 3; }

#[derive(Serialize, Deserialize)]
pub struct Log { pub last: heapless::Vec<u8, { Limits::MOST }>, pub text: heapless::String<{ <Limits>::MOST }> }
