use serde::{self as s, Serializer};
#[derive(s::Serialize, s::Deserialize)]
pub struct C(u8);
#[derive(Serialize)]
pub struct A(u8);
