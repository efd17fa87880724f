// Two versions of a type, each in a module of its own, as a macro or a script writes them.
use serde::{Deserialize, Serialize};

mod v1 { use serde::{Deserialize, Serialize}; #[derive(Serialize, Deserialize)] pub struct Level { pub value: u8 } } mod v2 { use serde::{Deserialize, Serialize}; #[derive(Serialize, Deserialize)] pub struct Level { pub value: u16 } }

#[derive(Serialize, Deserialize)]
pub struct Reading {
    pub first: v1::Level,
    pub second: v2::Level,
}
