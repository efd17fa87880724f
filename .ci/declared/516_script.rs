#!/usr/bin/env -S cargo +nightly -Zscript
---
[package]
edition = "2024"
[dependencies]
serde = { version = "1", features = ["derive"] }
postcard = "1"
---
//! A script that sends one message.
use serde::{Deserialize, Serialize};

#[derive(Serialize, Deserialize)]
struct Hello { id: u32, greeting: String }

fn main() {}
