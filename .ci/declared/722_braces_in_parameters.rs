//! Braces in the parameters of a type aren't its body, so the next parameter is no constant.
use serde::{Deserialize, Serialize};

#[derive(Serialize, Deserialize)]
pub struct Sample {
    pub level: u16,
    pub unit: String,
}

pub struct Window<const WIDTH: usize = { 2 + 2 }, const HEIGHT: usize = 3> {
    pub rows: [[u8; WIDTH]; HEIGHT],
}

type String = [u8; 4];

pub trait Filter<const TAPS: usize> {}

pub struct Chain<F: Filter<{ 4 * 2 }>, const LEN: usize> {
    pub filters: [F; LEN],
}

#[derive(Serialize, Deserialize)]
pub struct Range(pub u8, pub u8);

pub const LAST: Range = Range(0, 1);
