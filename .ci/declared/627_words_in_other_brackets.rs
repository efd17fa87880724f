//! Serde reads its words between any brackets.
use serde::{Deserialize, Serialize};

#[derive(Serialize, Deserialize)]
pub struct Sample {
    #[serde{skip}]
    pub cache: u8,
    #[serde[skip]]
    pub shadow: u32,
    pub level: u16,
}
