// The module that is renamed may be another one without the condition.
pub mod old {
    // message
    pub struct Level(pub [u8; 9]);
}
mod other {
    pub mod units {
        // message
        pub struct Gain(pub [u8; 8]);
    }
}
mod board {
    #[cfg(feature = "new")]
    pub mod proto {
        // message
        pub struct Level(pub [u8; 1]);
    }
    #[cfg(not(feature = "new"))]
    pub use super::old as proto;
}
mod chip {
    #[cfg(feature = "new")]
    pub mod units {
        // message
        pub struct Gain(pub [u8; 2]);
    }
    pub(crate) use super::other::*;
}
use board::proto as wire;
use chip::units as si;
// message
struct Named(wire::Level);
// message
struct Starred(si::Gain);
