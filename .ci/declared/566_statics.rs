//! A length that is a static, beside the constant of another module.
use serde::Serialize;

pub static LANES: usize = count(2);
static mut TAPS: usize = count(3);

#[derive(Serialize)]
pub struct Frame { pub lanes: [u8; LANES], pub taps: [u8; TAPS] }

mod radio { pub const LANES: usize = 9; pub const TAPS: usize = 5; }
