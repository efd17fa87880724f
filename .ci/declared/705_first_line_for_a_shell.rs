#!/usr/bin/env -S sh -c 'cargo run"
use serde::Serialize;
#[derive(Serialize)]
pub struct A(u8);
