//! A macro that hands known types to another one, which makes no type of them.
use serde::{Deserialize, Serialize};

pub trait Unit {
    const BITS: u8;
}

macro_rules! unit {
    ($kind:ident) => {
        impl Unit for $kind {
            const BITS: u8 = 8;
        }
    };
}

macro_rules! units {
    ($($kind:ident),*) => {
        $(unit! { $kind })*
    };
}

units!(u8, u16, String);

#[derive(Serialize, Deserialize)]
pub struct Reading {
    pub id: u8,
    pub value: u16,
    pub name: String,
}
