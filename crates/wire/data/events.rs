// What a tank tells, as its firmware declares it.
use serde::{Deserialize, Serialize};

#[derive(Debug, Serialize, Deserialize)]
pub enum Event {
    Started,
    Level { tank: u8, litres: u16 },
    Alarm(String),
    Stopped,
}
