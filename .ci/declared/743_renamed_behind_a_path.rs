//! Names that a module gives to what another one declares.
use serde::{Deserialize, Serialize};

pub mod limits {
    pub mod can {
        pub const LONG: usize = 64;
        #[derive(serde::Serialize, serde::Deserialize)]
        pub struct Id(pub u32);
    }
    pub use can::{Id as CanId, LONG as CAN_FD};
}

#[derive(Serialize, Deserialize)]
pub struct Frame {
    pub data: [u8; limits::CAN_FD],
}

#[derive(Serialize, Deserialize)]
pub struct Filter {
    pub id: limits::CanId,
}
