//! A module on some devices alone: on the others a `*` brings in another one of its name.
mod settings {
    pub use super::defaults::*;

    #[cfg(feature = "wide")]
    pub mod limits {
        #[derive(Serialize, Deserialize)]
        pub struct Limit(pub u32);
    }
}

mod defaults {
    pub mod limits {
        #[derive(Serialize, Deserialize)]
        pub struct Limit(pub u8);
    }
}

#[derive(Serialize, Deserialize)]
pub struct Valve {
    pub limit: settings::limits::Limit,
}
