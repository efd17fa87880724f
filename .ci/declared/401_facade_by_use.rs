pub mod drivers { pub mod adc { pub type Level = i16; } }
pub mod api { pub use super::drivers::*; }
use api::adc::Level;
// message
struct Event { level: Level }
