#[derive(Serialize, Deserialize)]
#[serde(from = "u32", into = "u32")]
pub struct A(u64);
#[derive(Serialize, Deserialize)]
#[serde(try_from = "String")]
pub struct B(u64);
#[derive(Serialize, Deserialize)]
pub struct C { #[serde(serialize_with = "ser", deserialize_with = "de")] pub a: u8, #[serde(with = "hex::serde")] pub b: [u8; 4], #[serde(getter = "x")] pub c: u8 }
