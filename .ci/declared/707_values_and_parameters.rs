use serde::{Deserialize, Serialize};
#[derive(Serialize, Deserialize, Default)]
pub struct A {
    pub a: u8 = 3,
    pub b: [u8; 2] = [1, 2],
    pub c: u16,
}
#[derive(Serialize, Deserialize)]
pub struct B<#[allow(unused)] T, #[doc(hidden)] const N: usize> {
    pub a: [T; N],
}
#[derive(Serialize, Deserialize)]
pub enum C {
    X(B<u8, 3>) = 1,
}
