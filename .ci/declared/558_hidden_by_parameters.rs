//! Parameters that have names of types, and names of types that are parameters elsewhere.
use serde::{Deserialize, Serialize};

#[derive(Serialize, Deserialize)]
pub struct Id(pub u32);

#[derive(Serialize, Deserialize)]
pub struct Keyed<Id, Vec, const LEN: usize> { pub id: Id, pub list: Vec, pub ids: [Id; LEN] }

pub const LEN: usize = 4;

#[derive(Serialize, Deserialize)]
pub struct Table {
    pub small: Keyed<u8, Option<Id>, 1>,
    pub large: Keyed<Id, Vec<Id>, { LEN / 2 }>,
    pub rest: [Id; LEN],
}
