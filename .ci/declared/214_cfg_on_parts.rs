#[derive(serde::Serialize, serde::Deserialize)]
pub struct A {
    pub a: u8,
    #[cfg(feature = "wide")]
    pub b: u16,
}
#[derive(serde::Serialize, serde::Deserialize)]
pub enum E { A, #[cfg(any(feature = "x", test))] B(u8), C }
#[cfg(feature = "std")]
#[derive(serde::Serialize, serde::Deserialize)]
pub struct OnlyStd { pub a: std::string::String }
#[cfg(not(feature = "std"))]
#[derive(serde::Serialize, serde::Deserialize)]
pub struct NoStd { pub a: heapless::String<8> }
