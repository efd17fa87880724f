#!/usr/bin/env run-cargo-script
#[macro_use]
extern crate serde;
extern crate alloc;
use alloc::{string::String, vec::Vec};
#[derive(Serialize, Deserialize)]
pub struct A { pub a: String, pub b: Vec<u16> }
