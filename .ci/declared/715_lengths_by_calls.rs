//! Lengths by functions that a `use` brings in: the number is wanted, and no file.
use core::mem::size_of;

pub const HEADER: usize = size_of::<u32>();

#[derive(Serialize)]
pub struct Frame {
    pub head: [u8; HEADER],
    pub tail: [u8; 64 - size_of::<u32>()],
}
