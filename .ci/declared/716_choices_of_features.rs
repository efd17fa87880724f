//! Features that exclude each other, and code for the processor: neither makes a name.
#[cfg(all(feature = "rev_a", feature = "rev_b"))]
compile_error!("choose one of rev_a and rev_b");

core::arch::global_asm!("nop");

use levels::*;

mod levels {
    pub type Level = u16;
}

#[derive(Serialize)]
struct Sample {
    level: Level,
}
