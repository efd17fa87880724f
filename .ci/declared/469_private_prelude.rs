mod prelude {
    pub(crate) use core::time::Duration;
    pub(crate) use heapless::{Deque, String};
    pub(crate) use serde::{Deserialize, Serialize};
}
use prelude::*;
#[derive(Serialize, Deserialize)]
pub struct Note { text: String<16>, queue: Deque<u8, 4> }
