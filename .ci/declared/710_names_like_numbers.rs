use serde::{Deserialize, Serialize};

const _1: usize = 3;
const _0X: usize = 2;

#[derive(Serialize, Deserialize)]
pub struct Underscored {
    pub first: [u8; _1],
    pub second: [u8; _0X],
    pub third: [u8; 1_0],
}
