//! Macros that are called as known ones, but are the file's own.
use ids::*;

macro_rules! topics {
    ($name:ident) => {
        pub type $name = u32;
    };
}

macro_rules! bitflags {
    ($name:ident) => {
        pub type $name = u32;
    };
}

topics!(DeviceId);
bitflags!(Gain);

mod ids {
    pub type DeviceId = u8;
    pub type Gain = u8;
}

#[derive(Serialize)]
struct Hello {
    id: DeviceId,
    gain: Gain,
}
