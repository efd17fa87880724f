pub mod drivers { pub mod adc { pub type Level = i16; } }
pub mod api { pub use super::drivers::*; }
// message
struct Event { level: api::adc::Level }
