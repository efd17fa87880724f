use postcard_rpc::{endpoints, topics, TopicDirection};
use postcard_schema::Schema;
use serde::{Deserialize, Serialize};
pub type SleepResult = Result<SleepDone, SleepErr>;
endpoints! {
    list = ENDPOINT_LIST;
    | EndpointTy     | RequestTy   | ResponseTy   | Path          |
    | ----------     | ---------   | ----------   | ----          |
    | SleepEndpoint  | SleepMillis | SleepResult  | "icd/sleep"   |
}
topics! {
    list = TOPICS_OUT;
    direction = TopicDirection::ToClient;
    | TopicTy   | MessageTy | Path    | Cfg |
    | -------   | --------- | ----    | --- |
    | TempTopic | Temp      | "temp"  |     |
}
#[derive(Debug, Serialize, Deserialize, Schema)]
pub struct SleepMillis { pub millis: u16 }
#[derive(Debug, Serialize, Deserialize, Schema)]
pub struct SleepDone { pub slept_for: SleepMillis }
#[derive(Debug, Serialize, Deserialize, Schema)]
pub enum SleepErr { Busy, TooLong(SleepMillis) }
#[derive(Debug, Serialize, Deserialize, Schema)]
pub struct Temp(pub f32);
#[derive(Debug, Serialize, Deserialize, Schema)]
pub struct Outcome(pub SleepResult);
