use serde::{Deserialize, Serialize};
#[derive(Serialize, Deserialize)]
pub struct r#Match { pub r#type: u8, pub r#fn: r#Kind }
#[derive(Serialize, Deserialize)]
pub enum r#Kind { r#A, r#Self_(u8), B { r#struct: u16 } }
