//! The crate's own `Result` isn't in its prelude, and so hides nothing there.
pub type Result<T> = core::result::Result<T, Error>;
pub type Vec<T> = heapless::Vec<T, 8>;

#[derive(Serialize, Deserialize)]
pub enum Error {
    Busy,
    Late(u16),
}

mod prelude {
    pub use crate::ids::*;
    pub use serde::{Deserialize, Serialize};
}

mod ids {
    #[derive(serde::Serialize, serde::Deserialize)]
    pub struct Id(pub u16);
}

mod motor {
    use crate::Error;
    use crate::prelude::*;

    pub type MoveResult = Result<Id, Error>;

    #[derive(Serialize, Deserialize)]
    pub struct Moved {
        pub of: MoveResult,
        pub via: Vec<Id>,
    }
}
