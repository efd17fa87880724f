use serde::{Deserialize as De, Serialize as Ser};
#[derive(Ser, De)]
pub struct A(u8);
#[derive(Debug)]
pub struct B(u8);
