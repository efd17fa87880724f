//! A bench supply: maps by names, by numbers, and by what isn't a text.
use std::collections::{BTreeMap, BTreeSet, HashMap};

use serde::{Deserialize, Serialize};

#[derive(PartialEq, Eq, PartialOrd, Ord, Hash, Serialize, Deserialize)]
#[serde(rename_all = "SCREAMING-KEBAB-CASE")]
pub enum Channel { Main, AuxOne }

#[derive(PartialEq, Eq, PartialOrd, Ord, Serialize, Deserialize)]
pub struct Id(pub u16);

#[derive(Serialize, Deserialize)]
pub struct Limits {
    pub curves: BTreeMap<Channel, Vec<(f32, i16)>>,
    pub groups: HashMap<char, BTreeSet<u16>>,
    pub by_id: BTreeMap<Id, bool>,
    pub by_pair: BTreeMap<[u8; 2], ()>,
}
