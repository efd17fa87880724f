//! Attributes behind a `cfg_attr` within another one, whose condition is the outer one's alone.
#[cfg_attr(feature = "serde", cfg_attr(feature = "std", allow(unused)), derive(serde::Serialize, serde::Deserialize))]
pub struct Status {
    pub id: u8,
    #[cfg_attr(feature = "serde", cfg_attr(feature = "std", serde(skip)))]
    pub cached: u32,
}

#[cfg_attr(feature = "std", cfg_attr(feature = "serde", derive(serde::Serialize, serde::Deserialize)))]
pub struct Level {
    #[cfg_attr(feature = "std", serde(skip))]
    pub low: u8,
    pub high: u16,
}

#[cfg_attr(feature = "std", cfg_attr(feature = "serde", cfg(feature = "gps"), derive(serde::Serialize, serde::Deserialize)))]
pub enum Kind {
    #[cfg_attr(feature = "std", cfg_attr(feature = "serde", cfg(feature = "gps")))]
    Gps,
    Other,
}
