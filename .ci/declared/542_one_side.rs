//! The device only writes what the host only reads.
use serde::{Deserialize, Serialize};

#[derive(Serialize)]
pub struct Status<'a> {
    pub uptime: u32,
    #[serde(skip_deserializing)]
    pub name: &'a str,
    #[serde(skip_serializing)]
    pub secret: [u8; 16],
    #[serde(skip, default)]
    pub timer: Timer,
}

#[derive(Deserialize)]
pub struct Order {
    #[serde(skip_serializing)]
    pub key: u16,
    #[serde(skip_serializing_if = "Option::is_none", default)]
    pub limit: Option<u8>,
    #[serde(skip_deserializing)]
    pub received: Timer,
}

pub struct Timer;
