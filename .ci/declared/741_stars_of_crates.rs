//! All of crates by stars, which have no type that a message may be.
use defmt::*;
use heapless::*;
use serde::*;
use types::*;

mod types {
    #[derive(serde::Serialize, serde::Deserialize)]
    pub struct Level(pub u16);
}

#[derive(Serialize, Deserialize)]
pub struct Sample {
    pub level: Level,
    pub last: Vec<i16, 4>,
}
