#[cfg(feature = "v2")]
#[derive(Serialize, Deserialize)]
pub struct A { pub s: u32 }
#[cfg(not(feature = "v2"))]
#[derive(Serialize, Deserialize)]
pub struct B { pub s: u16 }
#[cfg(feature = "v2")]
mod inner { #[derive(serde::Serialize)] pub struct C(u8); }
