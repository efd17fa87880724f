use heapless::Vec;
use serde::{Deserialize, Serialize};
#[derive(Serialize, Deserialize)]
pub struct Ring<T, const N: usize> { #[serde(rename = "h")] head: u8, items: Vec<T, N> }
#[derive(Serialize, Deserialize)]
#[serde(rename_all = "camelCase")]
pub struct Log { last: Ring<Sample, { SIZE * 2 }>, first: Ring<[u8; SIZE], 1> }
#[derive(Serialize, Deserialize, Clone, Copy)]
pub struct Sample { t: u32, v: i16 }
pub const SIZE: usize = 4;
