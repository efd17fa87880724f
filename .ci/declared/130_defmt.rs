#![no_std]
use serde::{Deserialize, Serialize};

/// Commands to the motor.
#[derive(Clone, Copy, Debug, Serialize, Deserialize)]
#[cfg_attr(feature = "defmt", derive(defmt::Format))]
pub enum MotorCommand {
    Stop,
    #[cfg_attr(feature = "defmt", defmt(Debug2Format))]
    Run { rpm: i16, #[cfg_attr(feature = "std", doc = "ramp")] ramp_ms: u16 },
    Home(Axis),
}
#[derive(Clone, Copy, Debug, Serialize, Deserialize, defmt::Format)]
pub enum Axis { X = 0, Y, Z }
impl Default for Axis { fn default() -> Self { Axis::X } }
