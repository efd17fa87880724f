#[derive(Serialize, Deserialize)]
pub struct S<const N: usize> where [(); N]: Sized { pub a: [u8; N], pub b: u16 }
#[derive(Serialize, Deserialize)]
pub enum E where [u8; 3]: Sized, (u8, u16): Copy { A, B(u16) }
#[derive(Serialize, Deserialize)]
pub struct T<const N: usize>(pub [u8; N], pub u8) where [(); N]: Sized;
#[derive(Serialize, Deserialize)]
pub struct U { pub s: S<2>, pub e: E, pub t: T<3> }
