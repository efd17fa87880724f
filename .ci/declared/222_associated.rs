use serde::{Deserialize, Serialize};
pub trait Has { type Item; const N: usize; }
#[derive(Serialize, Deserialize)]
pub struct A<T: Has> { pub a: T::Item, pub b: u8 }
#[derive(Serialize, Deserialize)]
pub struct B { pub a: <u8 as Has>::Item }
#[derive(Serialize, Deserialize)]
pub struct C { pub a: A<u8> }
