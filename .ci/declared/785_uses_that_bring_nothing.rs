// A `use` that isn't `pub` brings nothing to other modules, also not behind a `*`.
mod old {
    // message
    pub struct Level(pub [u8; 1]);
    // message
    pub struct Gain(pub [u8; 2]);
}
mod new {
    // message
    pub struct Level(pub [u8; 3]);
}
mod types {
    // message
    pub struct Config(pub [u8; 4]);
    // message
    pub struct Mode(pub [u8; 5]);
}
mod by_name {
    use super::old::Level;
    pub use super::types::*;
    pub mod inside {
        use super::*;
        // message
        pub struct Inside(Level);
    }
}
mod by_star {
    use super::old::*;
    pub fn reset() {}
}
mod takes_new {
    use super::by_name::*;
    use super::new::*;
    // message
    pub struct ByName(Level, Config);
}
mod takes_new_too {
    use super::by_star::*;
    use super::new::*;
    // message
    pub struct ByStar(Level);
}
mod commands {
    use super::types::Config;
    use super::types::*;
    // message
    pub struct Command(pub Config, pub Mode);
}
pub mod api {
    pub use super::commands::*;
    pub use super::types::*;
}
mod user {
    use crate::api::{Command, Config, Mode};
    use crate::new::*;
    // message
    pub struct ByFacade(Command, Config, Mode, Level);
}
