use serde::{Deserialize, Serialize};

#[derive(Serialize, Deserialize)]
pub struct A {
    #[serde(with = "postcard::fixint::le")]
    pub a: usize,
    #[serde(with = "postcard::fixint::be")]
    pub b: isize,
    #[serde(with = "postcard::fixint::le")]
    pub c: u64,
}
