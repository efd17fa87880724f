//! Types that only a function knows, with aliases and constants of its own.
use serde::{Deserialize, Serialize};

type Id = u8;
const N: usize = 1;

pub fn send_hello() {
    type Id = u32;
    const N: usize = 2;
    #[derive(Serialize)]
    struct Hello { id: Id, data: [u8; N] }
    {
        type Id = (u16, i16);
        #[derive(Serialize)]
        struct Inner { id: Id, data: [u8; N] }
    }
}

impl Radio {
    pub fn send_bye(&mut self) {
        const N: usize = 3;
        #[derive(Serialize)]
        struct Bye<'a> { id: Id, data: &'a [u8; N] }
    }
}

pub struct Radio;

#[derive(Serialize, Deserialize)]
pub struct Outer { pub id: Id, pub data: [u8; N] }
