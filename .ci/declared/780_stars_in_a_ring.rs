//! Modules that bring in all of each other, and a name that comes through three of them.
use serde::{Deserialize, Serialize};

mod first {
    pub use super::second::*;
    pub type Level = u16;
}

mod second {
    pub use super::third::*;
    pub const CHANNELS: usize = 3;
}

mod third {
    pub use super::first::*;
    pub use super::first::Level as _;
    use serde::{Deserialize, Serialize};

    #[derive(Serialize, Deserialize)]
    pub struct Sample {
        pub levels: [Level; CHANNELS],
    }
}

// of these two only one is brought in
mod other {
    pub type Gain = u8;
    pub type Level = u64;
}

mod facade {
    pub use crate::first::Sample;
    pub(crate) use crate::other::Gain;
}

use first::*;

#[derive(Serialize, Deserialize)]
pub struct Frame {
    pub sample: Sample,
    pub level: Level,
    pub gain: facade::Gain,
    pub last: facade::Sample,
}
