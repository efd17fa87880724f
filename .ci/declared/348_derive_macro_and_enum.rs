#[cfg(feature = "std")]
use thiserror::Error;
use serde::{Deserialize, Serialize};
#[derive(Serialize, Deserialize)]
#[cfg_attr(feature = "std", derive(Error))]
pub enum Error { Busy, Late(u16) }
#[derive(Serialize, Deserialize)]
pub struct A { e: Error }
