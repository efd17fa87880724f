use serde::{Deserialize, Serialize};
use serde_enum_str::{Deserialize_enum_str, Serialize_enum_str};

#[derive(Deserialize, Serialize_enum_str)]
pub enum Level {
    Low,
    High,
}

#[derive(Serialize, Deserialize_enum_str)]
pub enum Mode {
    Low,
    High,
}
