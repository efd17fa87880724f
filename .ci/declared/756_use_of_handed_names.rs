mod units {
    pub mod volts {
        pub type Level = u32;
    }
    pub type Level = u16;
    pub type String = [u8; 4];
}
mod volts {
    pub type Level = u8;
}

macro_rules! bring {
    ($path:path, $name:ident) => {
        use $path as $name;
    };
}
macro_rules! bring_own {
    ($name:ident) => {
        use crate::units::$name;
    };
}
// One that brings in its own names alone.
macro_rules! read {
    () => {
        use $crate::units::Level as _;
    };
}

mod first {
    use super::*;
    bring!(super::units::volts, volts);
    // message
    struct Reading(volts::Level);
}
mod second {
    bring_own!(String);
    // message
    struct Hello(String);
}
mod third {
    use super::units::Level;
    read!();
    // message
    struct Sample(Level, super::volts::Level);
}
