#![allow(non_camel_case_types, uncommon_codepoints)]
use serde::{Deserialize, Serialize};

/// Wide in this module alone.
type u8 = u16;

/// Its name begins with no letter, but may be one.
mod ℘ {
    use serde::{Deserialize, Serialize};

    #[derive(Serialize, Deserialize)]
    pub struct Power(pub u8);
}

#[derive(Serialize, Deserialize)]
pub struct ℮Volt(pub u8);

#[derive(Serialize, Deserialize)]
pub struct Both(pub ℮Volt, pub ℘::Power);
