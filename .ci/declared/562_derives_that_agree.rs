//! Two derives under one condition, and under two of which no field says anything.
#[cfg_attr(feature = "serde", derive(serde::Serialize))]
#[cfg_attr(feature = "serde", derive(serde::Deserialize))]
pub struct Level { pub x: u8, #[cfg_attr(feature = "serde", serde(skip))] pub y: u16 }

#[derive(serde::Serialize)]
#[cfg_attr(feature = "host", derive(serde::Deserialize))]
pub struct Both {
    #[cfg_attr(feature = "host", serde(rename = "n"))]
    pub name: u8,
    #[serde(skip)]
    pub held: u16,
    #[serde(with = "postcard::fixint::le")]
    pub low: u32,
}
