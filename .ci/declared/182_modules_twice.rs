pub mod v1 { #[derive(Serialize, Deserialize)] pub struct Msg { pub a: u8 } }
pub mod v2 { #[derive(Serialize, Deserialize)] pub struct Msg { pub a: u16 } }
#[derive(Serialize, Deserialize)]
pub enum Any { One(v1::Msg), Two(v2::Msg) }
