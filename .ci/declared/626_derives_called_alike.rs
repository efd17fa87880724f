//! Derives whose names begin as those of serde, and which may send something else.
use serde::{Deserialize, Serialize};
use zvariant::SerializeDict;

#[derive(SerializeDict, Deserialize)]
pub struct Level {
    pub value: u8,
}

#[derive(Serialize, serde_plain::DeserializeText)]
pub struct Gain(pub u8);
