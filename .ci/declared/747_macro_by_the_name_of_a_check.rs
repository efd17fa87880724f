//! A macro of this file to which a `use` gives the name of a check.
use serde::{Deserialize, Serialize};

macro_rules! define {
    ($name:ident) => {
        pub type $name = u32;
    };
}

pub(crate) use define as const_assert;

pub mod messages {
    use super::const_assert;
    use super::*;

    const_assert!(String);

    #[derive(Serialize, Deserialize)]
    pub struct Hello {
        pub name: String,
    }
}
