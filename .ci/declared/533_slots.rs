//! A store with slots; some have never been written.
use serde::{Deserialize, Serialize};

const BANKS: usize = 2;
const SLOTS: usize = BANKS * 2 - 1;

#[derive(Serialize, Deserialize)]
pub struct Slot { pub written: u32, pub value: Value }

#[derive(Serialize, Deserialize)]
pub enum Value { Erased, Word(u32), Pair([i16; 2]), Text(heapless::String<6>) }

#[derive(Serialize, Deserialize)]
pub struct Store {
    pub banks: [[Option<Slot>; SLOTS]; BANKS],
    pub spare: [(); 1000],
    pub active: Option<Option<u8>>,
}
