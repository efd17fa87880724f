use serde::{Deserialize, Serialize};
#[derive(Serialize, Deserialize)]
pub struct A {
    #[serde(with = "humantime_serde")]
    pub t: u64,
}
#[derive(Serialize, Deserialize)]
pub struct B {
    #[serde(serialize_with = "hex::serialize", deserialize_with = "hex::deserialize")]
    pub t: [u8; 4],
}
#[derive(Serialize, Deserialize)]
pub struct C {
    #[serde(with = "serde_bytes")]
    pub t: [u8; 4],
    #[serde(with = "postcard::fixint::le")]
    pub n: NodeId,
}
pub type NodeId = u32;
