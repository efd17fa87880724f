use serde::{Deserialize, Serialize};
pub type Sample<T> = (u32, T);
pub type Names = heapless::Vec<heapless::String<8>, 4>;
pub type Pair<T, const N: usize> = [T; N];
pub type Lent<'a> = &'a [u8];
#[derive(Serialize, Deserialize)]
pub struct A<'a> { pub s: Sample<u16>, pub n: Names, pub p: Pair<i16, 2>, pub l: Lent<'a> }
