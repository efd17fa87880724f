#[cfg(feature = "sim")]
mod board {
    // message
    pub struct Adc(pub u8);
}
#[cfg(not(feature = "sim"))]
use boards::rev2::board;
mod boards { pub mod rev2 { pub mod board {
    // message
    pub struct Adc(pub u16);
} } }
// message
pub struct Reading { adc: board::Adc }
