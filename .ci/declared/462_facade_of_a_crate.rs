mod drivers { pub mod adc { pub type Level = i16; } }
mod api { pub use vendor_hal::*; }
// message
pub struct Event { level: api::adc::Level }
