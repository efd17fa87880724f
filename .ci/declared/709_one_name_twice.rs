use serde::{Deserialize, Serialize};

#[derive(Serialize, Deserialize)]
pub struct Axes {
    pub x: i16,
    pub y: i16,
    pub x: u8,
}

#[derive(Serialize, Deserialize)]
pub enum Light {
    Off,
    On { level: u8, level: u16 },
}

#[derive(Serialize, Deserialize)]
pub enum Mode {
    Off,
    On(u8),
    Off(u16),
}

#[derive(Serialize, Deserialize)]
pub struct Raw {
    pub r#level: u8,
    pub level: u8,
}

#[derive(Serialize, Deserialize)]
pub struct Right {
    pub level: u8,
    pub levels: (u8, u8),
    pub light: Light,
}
