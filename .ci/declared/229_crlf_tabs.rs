use serde::{Deserialize, Serialize};
#[derive(Serialize, Deserialize)]
pub struct A {
	pub a: u8,
	pub b: u16,
}
