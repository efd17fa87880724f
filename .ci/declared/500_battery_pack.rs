//! Telemetry of a battery pack with 13 cells in series.
#![no_std]
use serde::{Deserialize, Serialize};

pub const CELLS: usize = 13;
pub const PROBES: usize = CELLS / 3;
const FAULT_WORDS: usize = (CELLS + PROBES * 2 + 31) / 32;

/// A voltage in steps of 100 µV.
///
/// ```
/// # use pack::CellVoltage;
/// let it = CellVoltage(33_000);
/// assert_eq!(it.volts(), 3.3);
/// ```
#[derive(Clone, Copy, Debug, PartialEq, Eq, Serialize, Deserialize)]
pub struct CellVoltage(pub u16);

impl CellVoltage {
    pub const EMPTY: Self = CellVoltage(25_000);
    pub fn volts(self) -> f32 { f32::from(self.0) * 1.0e-4 }
}

#[derive(Clone, Debug, Serialize, Deserialize)]
pub struct PackState {
    pub cells: [CellVoltage; CELLS],
    pub probes: [Option<i8>; PROBES],
    pub faults: [u32; FAULT_WORDS],
    pub charge: Charge,
    pub current_ma: i32,
}

#[derive(Clone, Copy, Debug, Serialize, Deserialize)]
#[repr(u8)]
pub enum Charge {
    Idle = 0x00,
    Bulk { target_mv: u16 } = 0x10,
    Balance([bool; CELLS]) = 0x20,
    Fault = 0xFF,
}
