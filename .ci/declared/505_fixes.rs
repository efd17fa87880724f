//! Position fixes of a receiver of satellites.
use serde::{Deserialize, Serialize};

type Degrees = f64;

#[derive(Serialize, Deserialize)]
pub struct Satellite { pub system: char, pub prn: u8, pub snr: Option<u8> }

#[derive(Serialize, Deserialize)]
pub enum NoFix { Searching { seen: u8 }, Antenna, }

#[derive(Serialize, Deserialize)]
pub struct Fix {
    pub at: (Degrees, Degrees),
    pub height: f32,
    pub time: (u8, u8, (u8, u16)),
}

#[derive(Serialize, Deserialize)]
pub struct Report {
    pub fix: Result<Fix, NoFix>,
    pub best: [Option<Satellite>; 2],
}
