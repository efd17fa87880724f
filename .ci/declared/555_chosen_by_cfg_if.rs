use serde::{Deserialize, Serialize};

cfg_if::cfg_if! {
    if #[cfg(feature = "wide")] {
        pub type Id = u32;
        pub const LENGTH: usize = 8;
        pub use self::wide::Level;
    } else {
        pub type Id = u16;
        pub const LENGTH: usize = 4;
        pub use self::narrow::Level;
    }
}

pub mod wide { pub type Level = i32; }
pub mod narrow { pub type Level = i16; pub type Id = u8; pub const LENGTH: usize = 1; }

#[derive(Serialize, Deserialize)]
pub struct Frame { pub id: Id }

#[derive(Serialize, Deserialize)]
pub struct Body { pub data: [u8; LENGTH] }

#[derive(Serialize, Deserialize)]
pub struct Event { pub level: Level }
