//! Modules and types whose names are words of the language.
use serde::{Deserialize, Serialize};

pub mod r#async {
    use serde::{Deserialize, Serialize};

    #[derive(Serialize, Deserialize)]
    pub struct r#Task { pub r#fn: u16, pub r#as: Option<r#Box> }

    #[derive(Serialize, Deserialize)]
    pub struct Box(pub u8);

    pub mod r#final {
        pub const r#TRY: usize = 2;
    }
}

use r#async::r#final::r#TRY;

#[derive(Serialize, Deserialize)]
pub struct Plan {
    pub first: r#async::Task,
    pub r#in: [bool; TRY],
    pub r#out: [i8; r#async::r#final::TRY],
}
