//! Names that a macro of these files makes of others, beside the same names elsewhere.
use serde::{Deserialize, Serialize};

macro_rules! command {
    ($verb:ident, $noun:ident, $of:ty) => {
        paste::paste! {
            #[derive(Serialize, Deserialize)]
            pub struct [<$verb $noun>](pub $of);
        }
    };
}

macro_rules! led_command {
    ($verb:ident) => {
        command!($verb, Led, u16);
    };
}

pub mod v1 {
    use serde::{Deserialize, Serialize};

    #[derive(Serialize, Deserialize)]
    pub struct SetLed {
        pub index: u8,
        pub on: bool,
    }
}

led_command!(Set);

#[derive(Serialize, Deserialize)]
pub struct GetLed {
    pub index: u8,
}

#[derive(Serialize, Deserialize)]
pub struct Frame {
    pub seq: u8,
    pub body: SetLed,
}

pub mod v2 {
    use super::*;

    command!(Get, Led, u32);

    #[derive(Serialize, Deserialize)]
    pub struct Asked(pub GetLed);
}

#[derive(Serialize, Deserialize)]
pub struct Both(pub GetLed, pub v2::GetLed);

pub mod v3 {
    pub use super::v1::*;

    command!(Set, Led, u64);
}

pub mod user {
    use super::v3::*;
    use serde::{Deserialize, Serialize};

    #[derive(Serialize, Deserialize)]
    pub struct Held(pub SetLed);
}
