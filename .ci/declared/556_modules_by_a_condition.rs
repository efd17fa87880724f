//! Two files, of which a feature chooses one as the module.
use serde::{Deserialize, Serialize};

#[cfg(feature = "stm32")]
#[path = "stm32.rs"]
pub mod board;
#[cfg(not(feature = "stm32"))]
#[path = "nrf.rs"]
pub mod board;

pub use board::Pin;

#[derive(Serialize, Deserialize)]
pub struct Set { pub pin: Pin }

#[derive(Serialize, Deserialize)]
pub struct Level { pub of: board::Port }

mod unrelated { pub type Pin = u8; pub type Port = u8; }
