#![cfg_attr(not(feature = "use-std"), no_std)]
use postcard_schema::Schema;
use postcard_rpc::{endpoints, topics, TopicDirection};
use serde::{Deserialize, Serialize};

#[derive(Serialize, Deserialize, Schema, Debug, PartialEq)]
pub struct SingleLed { pub position: u32, pub rgb: Rgb8 }
#[derive(Serialize, Deserialize, Schema, Debug, PartialEq, Copy, Clone)]
pub struct Rgb8 { pub r: u8, pub g: u8, pub b: u8 }
#[derive(Serialize, Deserialize, Schema, postcard::experimental::max_size::MaxSize)]
pub struct BadPositionError;
pub type SingleLedSetResult = Result<(), BadPositionError>;
pub type AllArray = [Rgb8; 24];

endpoints! {
    list = ENDPOINT_LIST;
    | EndpointTy          | RequestTy     | ResponseTy            | Path              |
    | ----------          | ---------     | ----------            | ----              |
    | PingEndpoint        | u32           | u32                   | "ping"            |
    | SetAllLedEndpoint   | AllArray      | ()                    | "led/set_all"     |
}
topics! {
    list = TOPICS_IN_LIST;
    direction = TopicDirection::ToServer;
    | TopicTy | MessageTy | Path |
    | ------- | --------- | ---- |
}
#[derive(Serialize, Deserialize, Schema)]
pub struct Answer { pub done: SingleLedSetResult, pub all: AllArray }
