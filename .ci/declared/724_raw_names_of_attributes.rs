//! Attributes whose names are written `r#name`, which are those of the name.
use serde::{Deserialize, Serialize};

#[derive(Serialize, Deserialize)]
pub struct Sample {
    pub at: u16,
    #[r#cfg(feature = "humidity")]
    pub humidity: u8,
}

#[derive(Serialize, Deserialize)]
pub struct Status {
    #[r#cfg_attr(all(), serde(skip))]
    pub cached: u8,
    pub level: u16,
}

#[derive(Serialize, Deserialize)]
pub enum Event {
    #[r#cfg(feature = "radio")]
    Joined,
    Left(u8),
}
