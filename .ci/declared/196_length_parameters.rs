pub const N: usize = 4;
#[derive(Serialize, Deserialize)]
pub struct Buf<const N: usize>(pub [u8; N]);
impl<T, const N: usize> From<[T; N]> for Buf<N> { fn f<const N: usize>() {} }
#[derive(Serialize, Deserialize)]
pub struct A { pub n: [u8; N], pub b: Buf<3> }
