mod drivers { pub mod adc { pub type Level = i16; } }
mod api { pub use vendor_hal::adc; }
// message
pub struct Event { level: crate::api::adc::Level }
