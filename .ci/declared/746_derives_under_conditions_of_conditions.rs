//! Derives in a `cfg_attr` within another one, or written `r#derive`, and conditions that end with a comma.
#[cfg_attr(feature = "std", cfg_attr(feature = "serde", derive(serde::Serialize, serde::Deserialize)))]
pub struct Reading {
    pub at: u32,
    pub celsius: i16,
}

#[r#derive(r#serde::Serialize, serde::r#Deserialize)]
pub struct Beat {
    #[r#serde(r#with = "postcard::fixint::le")]
    pub count: u16,
    pub r#path: u8,
}

#[cfg_attr(any(feature = "serde", test,), derive(serde::Serialize, serde::Deserialize))]
pub struct Status {
    pub id: u8,
    #[cfg_attr(any(feature = "serde", test), serde(skip))]
    pub cached: u32,
    #[cfg_attr(any(feature = "serde", test), allow(unused), cfg_attr(all(), doc = "the level", deprecated), allow(dead_code))]
    pub level: u16,
}
