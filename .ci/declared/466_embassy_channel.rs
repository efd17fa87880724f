#![no_std]
#![no_main]
use defmt::*;
use embassy_executor::Spawner;
use embassy_sync::{blocking_mutex::raw::ThreadModeRawMutex, channel::Channel};
use serde::{Deserialize, Serialize};
use {defmt_rtt as _, panic_probe as _};

#[derive(Clone, Copy, Format, Serialize, Deserialize)]
pub enum Led { Off, On, Blink { period_ms: u16 } }
#[derive(Format, Serialize, Deserialize)]
pub struct Status { led: Led, uptime_s: u32, samples: [i16; CHANNELS] }
const CHANNELS: usize = 3;
static CHANNEL: Channel<ThreadModeRawMutex, Status, 4> = Channel::new();
