use serde::{Deserialize, Serialize};
pub const LEN: usize = 2;
#[derive(Serialize, Deserialize)]
pub struct A { pub a: [u8; A::LEN] }
impl A { pub const LEN: usize = 7; }
