//! The record in flash, as each release wrote it.
use serde::{Deserialize, Serialize};

pub mod v1 {
    use serde::{Deserialize, Serialize};
    pub const ZONES: usize = 2;
    #[derive(Serialize, Deserialize)]
    pub struct Record { pub zones: [u8; ZONES], pub flags: Flags }
    #[derive(Serialize, Deserialize)]
    pub struct Flags(pub u8);
}

pub mod v2 {
    use super::v1;
    use serde::{Deserialize, Serialize};
    pub const ZONES: usize = v1::ZONES + 1;
    #[derive(Serialize, Deserialize)]
    pub struct Record { pub zones: [Zone; ZONES], pub flags: v1::Flags, pub before: [u8; v1::ZONES] }
    #[derive(Serialize, Deserialize)]
    pub struct Zone { pub target: i16 }

    impl From<v1::Record> for Record {
        fn from(old: v1::Record) -> Self { todo!() }
    }
}

#[derive(Serialize, Deserialize)]
#[non_exhaustive]
pub enum Stored { Empty, V1(v1::Record), V2(v2::Record) }
