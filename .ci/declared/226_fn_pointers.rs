use serde::{Deserialize, Serialize};
#[derive(Serialize, Deserialize)]
pub struct A { pub id: u8, #[serde(skip)] pub call: Option<fn(u8) -> Result<u8, ()>>, #[serde(skip)] pub boxed: Option<Box<dyn Fn(&str) -> bool + Send>>, pub last: u16 }
