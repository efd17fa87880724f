pub mod hal { pub type Level = i16; }
mod app {
    use super::*;
    use hal::{self, Level};
    // message
    struct Event { level: Level }
}
