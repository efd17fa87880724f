//! Statics with what their values declare, and in what is of another language.
use core::cell::RefCell;
use serde::{Deserialize, Serialize};

pub const SLOTS: usize = 2;
pub static NAMES: [&str; SLOTS] = ["a", "b"];
static mut LAST: Option<Sample> = { struct Sample(u64); None };
static TABLE: &[u8] = { const SLOTS: usize = 9; &[0; SLOTS] };
static FIRST: fn() -> u8 = || 1;
extern "C" { static LINKED: u32; static mut CHANGED: u32; }
#[used]
pub(crate) static CELL: Mutex<RefCell<Option<Sample>>> = Mutex::new(RefCell::new(None));

#[derive(Serialize, Deserialize)]
pub struct Sample { pub at: u16, pub of: [u8; SLOTS], pub text: &'static str }
