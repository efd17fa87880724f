extern crate serde as ser;
#[derive(ser::Serialize, ser::Deserialize)]
pub struct A(u8);
