#[cfg(feature = "big")]
pub type Size = u32;
#[cfg(not(feature = "big"))]
pub type Size = u16;
#[cfg(feature = "big")]
pub const N: usize = 8;
#[cfg(not(feature = "big"))]
pub const N: usize = 4;
#[derive(Serialize, Deserialize)]
pub struct A { pub s: Size, pub n: [u8; N] }
