use serde::{Deserialize, Serialize};
#[derive(Serialize, Deserialize)]
pub struct B { pub id: u8, pub call: fn(u8) -> u8 }
