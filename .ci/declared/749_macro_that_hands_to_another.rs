//! A macro that hands all that it is given to another one, which makes a type of the first name.
use serde::{Deserialize, Serialize};

macro_rules! define {
    ($name:ident) => {
        pub type $name = u32;
    };
}

macro_rules! outer {
    ($($tokens:tt)*) => {
        define! { $($tokens)* }
    };
}

pub mod messages {
    use super::*;

    outer!(String);

    #[derive(Serialize, Deserialize)]
    pub struct Hello {
        pub name: String,
    }
}
