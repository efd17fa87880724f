//! Lengths and conditions in braces among bounds.
use serde::{Deserialize, Serialize};

pub struct Assert<const OK: bool>;

pub trait IsTrue {}

impl IsTrue for Assert<true> {}

#[derive(Serialize, Deserialize)]
pub struct Samples<const N: usize>
where
    Assert<{ true }>: IsTrue,
    [u8; N]: Sized,
{
    pub first: u16,
    pub rest: [u8; N],
}

#[derive(Serialize, Deserialize)]
pub struct Frame(pub Samples<3>);

#[derive(Serialize, Deserialize)]
pub struct Pair<T>(pub T, pub T)
where
    Assert<{ 1 < 2 }>: IsTrue,
    T: Copy;

#[derive(Serialize, Deserialize)]
pub enum Either
where
    Assert<{ true }>: IsTrue,
{
    None,
    One(u8),
}

#[derive(Serialize, Deserialize)]
pub struct Use(pub Pair<u8>, pub Either);
