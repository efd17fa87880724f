#![no_std]
#![allow(dead_code, unused)]
#![cfg_attr(docsrs, feature(doc_cfg))]
#![doc = "messages ] of the // device"]
#[derive(serde::Serialize, serde::Deserialize)]
pub struct A { a: u8 }
