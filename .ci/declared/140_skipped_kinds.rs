#[derive(serde::Serialize, serde::Deserialize)]
pub struct S { #[serde(skip)] f: Option<Box<dyn Fn(u8) -> u8 + Send>>, #[serde(skip, default = "x")] g: fn(u8, &str) -> [u8; 2], h: u8, #[serde(skip)] i: *const u8, #[serde(skip)] j: impl_trait::X<{ 1 + 2 }> }
