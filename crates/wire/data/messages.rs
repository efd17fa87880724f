// The messages of a lamp, as its firmware declares them.
use serde::{Deserialize, Serialize};

#[derive(Debug, Serialize, Deserialize)]
pub enum Light {
    Dark,
    Lit(u8),
}

#[derive(Debug, Serialize, Deserialize)]
pub struct Reading {
    pub level: i16,
    pub light: Light,
    pub name: String,
    pub key: Vec<u8>,
    pub next: Option<u64>,
}

#[derive(Debug, Serialize, Deserialize)]
pub struct Pair(Light, u32);
