use serde::{Deserialize, Serialize};
#[derive(Serialize, Deserialize)]
pub enum E<T> where T: Clone + Into<u32>, [T; 2]: Sized, for<'a> &'a T: core::fmt::Debug { A(T), B { t: Vec<T> } }
#[derive(Serialize, Deserialize)]
pub struct S<T: Clone = u8>(pub T) where T: PartialOrd<T>;
#[derive(Serialize, Deserialize)]
pub struct U { pub e: E<u8>, pub s: S<u16> }
