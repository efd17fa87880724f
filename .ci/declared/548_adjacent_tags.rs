use serde::{Deserialize, Serialize};
use std::collections::BTreeMap;

#[derive(Serialize, Deserialize)]
#[serde(tag = "t", content = "c")]
pub enum Event { Started, Value { x: f32 } }

#[derive(Serialize, Deserialize)]
pub struct Envelope {
    pub id: u8,
    #[serde(flatten)]
    pub extra: BTreeMap<String, String>,
}

#[derive(Serialize, Deserialize)]
#[serde(untagged)]
pub enum Level { Number(u8), Text(String) }
