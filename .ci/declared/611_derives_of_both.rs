use rkyv::Serialize as RkyvSerialize;
use serde::Serialize as S;

#[derive(RkyvSerialize, S)]
pub struct Sample(pub u8);
