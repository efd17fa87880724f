use serde::{Deserialize, Serialize};

#[derive(Clone, Copy, Serialize, Deserialize)]
pub enum Id { Standard(StandardId), Extended(ExtendedId) }

#[derive(Clone, Copy, Serialize, Deserialize)]
pub struct StandardId(u16);

#[derive(Clone, Copy, Serialize, Deserialize)]
pub struct ExtendedId(u32);

pub const CLASSIC: usize = 8;
pub const FD: usize = CLASSIC * CLASSIC;

#[derive(Serialize, Deserialize)]
pub struct Frame<const MAX: usize> { pub id: Id, pub data: heapless::Vec<u8, MAX>, pub remote: bool }

#[derive(Serialize, Deserialize)]
pub enum Event {
    Classic { bus: u8, frame: Frame<CLASSIC> },
    Fd { bus: u8, frame: Frame<FD>, brs: bool },
    ErrorCounters { tx: u8, rx: u8 },
    BusOff,
}
