use serde::{Deserialize, Serialize};

#[derive(Serialize, Deserialize)]
pub enum Shape {
    Unit,
    NoFields {},
    NoParts(),
    One(u8),
    OneTuple((u8,)),
    Nothing(()),
    NestedUnit(Marker),
    Named { only: u8 },
    Left { #[serde(skip)] cache: u32, right: u8 },
    AllLeft { #[serde(skip)] cache: u32 },
    TupleLeft(u8, #[serde(skip)] u32, u8),
    Option(Option<()>),
}

#[derive(Serialize, Deserialize)]
pub struct Marker;
