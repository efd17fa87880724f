#[path = "odd_name.rs"]
mod odd;
mod plain;
use odd::Odd;
use plain::{Plain as P, deep::Deep};
#[derive(serde::Serialize, serde::Deserialize)]
pub struct A { pub o: Odd, pub p: P, pub d: Deep }
