use serde::{Deserialize, Serialize};

#[derive(Serialize, Deserialize)]
pub enum BusError { Nack, Arbitration, Overrun { lost: u16 } }

#[derive(Serialize, Deserialize)]
pub struct Transfer {
    pub outcome: Result<Result<heapless::Vec<u8, 4>, BusError>, Timeout>,
    pub parts: [Result<(), (u8, BusError)>; 2],
    pub first: Option<Result<u16, ()>>,
}

#[derive(Serialize, Deserialize)]
pub struct Timeout;
