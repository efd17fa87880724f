use std::collections as col;
use heapless as hl;
use core::option;
use serde::{Deserialize, Serialize};
#[derive(Serialize, Deserialize)]
pub struct A { pub m: col::BTreeMap<u8, u8>, pub s: hl::String<4>, pub v: hl::Vec<u8, 2>, pub o: option::Option<u8> }
