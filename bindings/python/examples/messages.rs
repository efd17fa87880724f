use serde::{Deserialize, Serialize};

#[derive(Serialize, Deserialize)]
pub enum Light {
    Dark,
    Lit(u8),
}

#[derive(Serialize, Deserialize)]
pub struct Reading {
    pub level: i16,
    pub light: Light,
}
