#[cfg(feature = "small")]
mod imp { #[derive(serde::Serialize)] pub struct Size(pub u8); }
#[cfg(not(feature = "small"))]
mod imp { pub struct Size(pub u32); }
#[derive(serde::Serialize)]
pub struct A { pub size: imp::Size }
