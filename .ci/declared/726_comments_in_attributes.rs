//! Comments in attributes and in a `use`, which look like what says how a field is sent.
pub mod foo {
    pub mod a {
        #[derive(serde::Serialize)]
        pub struct Level(pub u8);
    }
    #[derive(serde::Serialize)]
    pub struct Level(pub u16);
    #[derive(serde::Serialize)]
    pub struct Other(pub u8);
}

#[derive(serde::Serialize)]
pub struct Other(pub u16);

#[cfg_attr(feature = "serde", derive(serde::Serialize))]
pub struct Sample {
    #[cfg_attr(
        feature = "serde",
        // with = default, since it isn't sent
        serde(skip)
    )]
    pub cached: u8,
    #[
        // with = nothing
        serde(skip)
    ]
    pub spare: u8,
    pub level: u16,
}

pub mod m {
    use super::foo::{
        // with = more than fixint::le
        a::Level,
        Other,
    };
    use super::*;

    #[derive(serde::Serialize)]
    pub struct Frame {
        pub other: Other,
        pub level: Level,
    }
}
