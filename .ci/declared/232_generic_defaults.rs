use serde::{Deserialize, Serialize};
#[derive(Serialize, Deserialize)]
pub struct A<T = u8> { pub a: T }
#[derive(Serialize, Deserialize)]
pub struct B<const N: usize = 3> { pub b: [u8; N] }
#[derive(Serialize, Deserialize)]
pub struct Use { pub a: A, pub b: B, pub c: A<u16>, pub d: B<2> }
