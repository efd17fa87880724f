use postcard_rpc::{endpoints, topics, TopicDirection};
use postcard_schema::Schema;
use serde::{Deserialize, Serialize};

pub type PingResult = Result<u32, PingError>;

endpoints! {
    list = ENDPOINT_LIST;
    | EndpointTy | RequestTy | ResponseTy | Path |
    | ---------- | --------- | ---------- | ---- |
    | PingEndpoint | u32 | u32 | "ping" |
    | SetLed | LedState | () | "led/set" |
}

topics! {
    list = TOPICS_IN_LIST;
    direction = TopicDirection::ToServer;
    | TopicTy | MessageTy | Path |
    | ------- | --------- | ---- |
}

#[derive(Serialize, Deserialize, Schema, Debug, PartialEq)]
pub enum LedState { Off, On }

#[derive(Serialize, Deserialize, Schema)]
pub enum PingError { Busy, Late { by: u32 } }

#[derive(Serialize, Deserialize, Schema)]
pub struct Poll { pub last: PingResult, pub led: LedState }
