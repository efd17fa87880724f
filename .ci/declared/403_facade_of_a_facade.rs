mod deep { // 
    // message
    pub struct Level(u8);
}
mod middle { pub use super::deep::*; }
pub mod api { pub use super::middle::Level; }
// message
struct Event { level: crate::api::Level }
