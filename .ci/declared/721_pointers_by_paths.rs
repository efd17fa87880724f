//! What follows `*const` and `&raw const` is no constant, and a variable called `union` begins no declaration.
use serde::{Deserialize, Serialize};

mod pac {
    pub struct Registers;
    pub static COUNTER: u32 = 0;
}

const COUNT: ::core::primitive::usize = 2;

pub fn registers() -> *const pac::Registers {
    0x4000_4400 as *const pac::Registers
}

#[derive(Serialize, Deserialize)]
pub struct Sample {
    pub level: u16,
    pub unit: String,
    pub serial: ByteBuf,
    pub flags: [bool; COUNT],
    pub range: Range,
}

pub fn counter() -> *const u32 {
    &raw const pac::COUNTER
}

type String = [u8; 4];

pub fn area(union: u8) -> u16 {
    union as u16
}

type ByteBuf = u32;

pub fn greatest(sets: &[u8]) -> u8 {
    let mut most = 0;
    for union in sets {
        most = match *union {
            union if union > most => union,
            _ => most,
        };
    }
    most
}

#[derive(Serialize, Deserialize)]
pub struct Range(pub u8, pub u8);
