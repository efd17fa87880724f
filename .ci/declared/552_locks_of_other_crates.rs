use core::sync::atomic::AtomicU32;
use embassy_sync::mutex::Mutex;
use serde::{Deserialize, Serialize};

#[derive(Serialize, Deserialize)]
pub struct Shared {
    pub a: Mutex<NoopRawMutex, u8>,
    pub b: embassy_sync::blocking_mutex::Mutex<NoopRawMutex, u8>,
    pub c: AtomicU32,
    pub d: *const u8,
    pub e: Box<dyn Fn(u8) -> u8>,
    pub f: Option<core::num::NonZeroU32>,
    pub g: [core::ops::RangeInclusive<u16>; 2],
    pub h: Result<u8, Box<dyn core::error::Error>>,
    pub i: core::time::Duration,
    pub j: impl Copy,
}
