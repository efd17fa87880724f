pub mod error {
    pub enum Error { Io }
    pub type Result<T> = core::result::Result<T, Error>;
}
use serde::{Deserialize, Serialize};
#[derive(Serialize, Deserialize)]
pub struct Answer { pub outcome: Result<u8, u16> }
