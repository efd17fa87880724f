//! Aliases without all of their parameters, or with more, and that hold themselves.
use serde::{Deserialize, Serialize};

pub type Result<T, E = Error> = core::result::Result<T, E>;
pub type Pair<T> = (T, T);
pub type Row<T, const N: usize> = [T; N];
pub type Round<T> = Back<(T, T)>;
pub type Back<T> = Round<T>;

#[derive(Serialize, Deserialize)]
pub enum Error {
    Busy,
}

#[derive(Serialize, Deserialize)]
pub struct A {
    pub a: Result<u8>,
}

#[derive(Serialize, Deserialize)]
pub struct B {
    pub a: Pair<u8, u8>,
    pub b: Pair<u8>,
}

#[derive(Serialize, Deserialize)]
pub struct C {
    pub a: Row<u8>,
}

#[derive(Serialize, Deserialize)]
pub struct D {
    pub a: Row<u8, Error>,
}

#[derive(Serialize, Deserialize)]
pub struct E {
    pub a: Round<u8>,
}
