use rustc_hash::FxHasher;
use serde::{Deserialize, Serialize};
use std::collections::{BTreeMap, HashMap, HashSet};
use std::hash::BuildHasherDefault;
pub type Fast<'a> = HashMap<&'a str, Vec<(u8, i16)>, BuildHasherDefault<FxHasher>>;
#[derive(Serialize, Deserialize)]
pub struct A<'a> { #[serde(borrow)] pub m: Fast<'a>, pub s: HashSet<u8, BuildHasherDefault<FxHasher>>, pub t: BTreeMap<u8, BTreeMap<String, [Option<u8>; 2]>> }
