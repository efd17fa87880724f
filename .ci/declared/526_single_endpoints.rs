//! Endpoints one by one, each by a macro.
use postcard_rpc::{endpoint, topic};
use postcard_schema::Schema;
use serde::{Deserialize, Serialize};

endpoint!(SleepEndpoint, Sleep, SleepDone, "sleep");
topic!(Temperature, Celsius, "temperature");

#[derive(Serialize, Deserialize, Schema, Debug, PartialEq)]
pub struct Sleep { pub seconds: u32, pub micros: u32 }

#[derive(Serialize, Deserialize, Schema, Debug, PartialEq)]
pub struct SleepDone { pub slept_for: Sleep, pub result: Result<(), SleepError> }

#[derive(Serialize, Deserialize, Schema, Debug, PartialEq)]
pub enum SleepError { Busy, TooLong { most: u16 } }

#[derive(Serialize, Deserialize, Schema, Debug, PartialEq)]
pub struct Celsius(pub f32);
