//! A spectrum of 300 bins: counts and lengths past a byte.
use serde::{Deserialize, Serialize};

#[derive(Serialize, Deserialize)]
pub struct Spectrum {
    pub bins: heapless::Vec<i16, 300>,
    pub label: heapless::String<200>,
    pub raw: heapless::Vec<u8, 16384>,
    pub wide: [u128; 1],
    pub low: i128,
}
