//! Derives that not every build has, and attributes that only one of them has.
use serde::Serialize;

#[derive(Serialize)]
#[cfg_attr(feature = "host", derive(serde::Deserialize))]
pub struct Status { pub x: u8, #[cfg_attr(feature = "host", serde(skip))] pub y: u16 }

#[cfg_attr(feature = "host", derive(serde::Deserialize))]
#[derive(Serialize)]
pub struct Turned { pub x: u8, #[cfg_attr(feature = "host", serde(skip))] pub y: u16 }

#[cfg_attr(feature = "ser", derive(serde::Serialize))]
#[cfg_attr(feature = "de", derive(serde::Deserialize))]
pub struct Count {
    #[cfg_attr(feature = "de", serde(with = "postcard::fixint::le"))]
    pub low: u32,
}

#[cfg_attr(feature = "de", derive(serde::Deserialize))]
#[cfg_attr(feature = "ser", derive(serde::Serialize))]
pub struct Counted {
    #[cfg_attr(feature = "de", serde(with = "postcard::fixint::le"))]
    pub low: u32,
}
