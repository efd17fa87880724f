//! Discriminants with types in them, one of which has a comma that ends no variant.
use serde::Serialize;

pub trait Pair<T> {
    type Out;
}

pub trait Code {
    const CODE: isize;
}

impl Code for dyn Pair<u8, Out = u8> { const CODE: isize = 3; }

#[derive(Serialize)]
pub enum Axis {
    First = <dyn Pair<u8, Out = u8> as Code>::CODE,
    Second,
}

#[derive(Serialize)]
pub enum Size {
    Byte = core::mem::size_of::<u8>() as isize,
    Shifted = 1 << 3,
    Back = 256 >> 4,
    Pair = core::mem::size_of::<[u8; 2]>() as isize,
}
