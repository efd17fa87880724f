#[cfg(feature = "v2")]
#[derive(Serialize, Deserialize)]
pub struct A { a: u16 }
#[cfg(not(feature = "v2"))]
#[derive(Serialize, Deserialize)]
pub struct A { a: u8 }
