// Without the feature it is the module that the `*` brings in.
mod units {
    #![cfg(feature = "long")]
    pub type Level = u32;
}
mod short {
    pub mod units {
        pub type Level = u8;
    }
    pub mod others {
        #![allow(dead_code)]
        pub type Level = u16;
    }
}
use short::*;

// message
struct Reading(units::Level);
// message
struct Sure(self::short::units::Level, crate::short::others::Level);
