mod wide { pub type Stamp = u64; }
mod time {
    pub use super::wide::*;
    #[cfg(feature = "narrow")]
    pub type Stamp = u16;
}
// message
pub struct Event { at: time::Stamp }
