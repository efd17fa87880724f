pub mod std { #[derive(serde::Serialize)] pub struct String(pub u8); }
pub mod heapless { pub mod vec { #[derive(serde::Serialize)] pub struct Vec { pub a: u8, pub b: u8 } } pub use self::vec::Vec; }
#[derive(serde::Serialize)]
pub struct A { pub s: std::String, pub v: self::heapless::Vec }
