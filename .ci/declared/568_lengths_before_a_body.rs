//! Lengths in braces before the body of an `impl`, a trait and a function.
use serde::{Deserialize, Serialize};

pub const DEPTH: usize = 2;
pub type Word = u16;

impl Device<{ DEPTH + 1 }> for Bus {
    type Word = u64;
    const DEPTH: usize = 7;
    fn send(&mut self) {
        #[derive(Serialize, Deserialize)]
        struct Local { word: Word, depth: [u8; DEPTH] }
    }
}

impl<const N: usize> Device<{ N - 1 }> for Wide<{ N }>
where
    Check<{ N > 1 }>: Holds,
{
    type Word = u32;
    const DEPTH: usize = 8;
}

pub trait Holds<const N: usize = { DEPTH * 2 }> {
    const DEPTH: usize = 5;
}

pub fn taken(from: Bus) -> Queue<{ DEPTH }, fn(u8) -> u8> {
    type Word = u8;
    const DEPTH: usize = 6;
    Queue::new()
}

#[derive(Serialize, Deserialize)]
pub struct Frame { pub word: Word, pub depth: [u8; DEPTH] }
