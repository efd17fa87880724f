use serde::{Deserialize, Serialize};
#[derive(Clone, Serialize, Deserialize)]
#[serde(from = "u8", into = "u8")]
pub struct Level(Inner);
#[derive(Serialize, Deserialize)]
#[serde(try_from = "RawRate")]
pub struct Rate { pub hz: u32 }
