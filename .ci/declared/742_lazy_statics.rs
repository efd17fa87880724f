//! Statics that are made at their first use, beside a star.
use levels::*;
use serde::{Deserialize, Serialize};
use std::sync::Mutex;

mod levels {
    #[derive(serde::Serialize, serde::Deserialize)]
    pub struct Level(pub u16);
}

lazy_static::lazy_static! {
    static ref LAST: Mutex<Option<Level>> = Mutex::new(None);
}

#[derive(Serialize, Deserialize)]
pub struct Sample {
    pub level: Level,
    pub at: u32,
}
