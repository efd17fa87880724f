#[derive(Serialize)]
pub struct A { #[serde(skip_serializing)] pub a: u8, pub b: u16 }
#[derive(Deserialize)]
pub struct B { #[serde(skip_deserializing)] pub a: u8, pub b: u16 }
#[derive(Serialize)]
pub enum E { A, #[serde(skip)] B, C }
#[derive(Serialize)]
pub struct C { #[serde(skip_serializing_if = "Option::is_none")] pub a: Option<u8>, #[serde(serialize_with = "f")] pub b: u8 }
