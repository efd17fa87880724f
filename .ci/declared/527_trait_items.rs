use serde::{Deserialize, Serialize};

pub trait Device {
    type Error;
    type Frame<'a>: Into<u8> where Self: 'a;
    const DEPTH: usize = 99;
    fn poll(&mut self) -> Result<Self::Frame<'_>, Self::Error> { enum Local { DEPTH } let _ = Local::DEPTH; todo!() }
}

pub const DEPTH: usize = 2;

#[derive(Serialize, Deserialize)]
pub enum Error { Nack, Timeout(u16) }

pub struct Bus;

impl Device for Bus {
    type Error = u64;
    type Frame<'a> = u8;
    const DEPTH: usize = 50;
}

#[derive(Serialize, Deserialize)]
pub struct Poll { pub error: Option<Error>, pub depth: [u8; DEPTH] }
