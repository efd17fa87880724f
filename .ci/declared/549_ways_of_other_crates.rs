use serde::{Deserialize, Serialize};

#[derive(Serialize, Deserialize)]
pub struct Schedule {
    #[serde(with = "humantime_serde")]
    pub every: u64,
    #[serde(serialize_with = "hex::serde::serialize", deserialize_with = "hex::serde::deserialize")]
    pub key: [u8; 16],
    #[serde(with = "chrono::serde::ts_seconds")]
    pub from: i64,
    #[serde(with = "self::fixed")]
    pub gain: u16,
}

#[serde_with::skip_serializing_none]
#[derive(Serialize, Deserialize)]
pub struct Patch { pub name: Option<u8> }

mod fixed {}
