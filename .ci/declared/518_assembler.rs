#![no_std]
use core::arch::{asm, global_asm};
use serde::{Deserialize, Serialize};

global_asm!(
    ".section .vectors, \"ax\"",
    "// struct Reset {{ a: u8 }}",
    "b {start}", // '
    start = sym start,
);

unsafe extern "C" fn start() -> ! {
    loop { unsafe { asm!("wfi", options(nomem, nostack)); asm!("/* {{ */", "nop") } }
}

#[derive(Serialize, Deserialize)]
pub struct Trap { pub cause: u32, pub at: u64 }
