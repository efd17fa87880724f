use serde::{Deserialize, Serialize};

pub const SLOTS: usize = if cfg!(feature = "large") { 64 } else { 16 };
pub const BYTES: usize = match SLOTS { 64 => 8, _ => 2 };
pub const LIST: [u8; 3] = [1, 2, 3];

#[derive(Serialize, Deserialize)]
pub struct Map {
    pub a: [u8; SLOTS],
    pub b: [u8; BYTES],
    pub c: [u8; LIST.len()],
    pub d: [u8; LIST[1] as usize],
    pub e: [u8; SLOTS.next_power_of_two()],
    pub f: [u8; usize::pow(2, 3)],
    pub g: [u8; 9 & 7],
    pub h: [u8; max!(2, 3)],
    pub i: [u8; b'a' as usize],
    pub j: [u8; "four".len()],
    pub k: [u8; 1e2 as usize],
    pub l: [u8; -1i32 as u8 as usize],
    pub m: [u8; 300 as u8 as usize],
    pub n: [u8; 2 - 3 + 4],
    pub o: [u8; { let n = 4; n }],
}
