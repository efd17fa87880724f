//! What a radio gateway forwards, borrowed from its buffer where it can be.
extern crate alloc;
use alloc::borrow::Cow;
use alloc::collections::BTreeMap;
use serde::{Deserialize, Serialize};

#[derive(Serialize, Deserialize)]
pub struct Uplink<'a> {
    #[serde(borrow)]
    pub node: &'a str,
    #[serde(borrow)]
    pub tags: Vec<Cow<'a, str>>,
    #[serde(borrow)]
    pub route: [&'a str; 2],
    #[serde(borrow)]
    pub payload: Option<Cow<'a, [u8]>>,
    #[serde(borrow)]
    pub headers: BTreeMap<Cow<'a, str>, &'a [u8]>,
    pub rssi: Option<i8>,
}

#[derive(Serialize, Deserialize)]
pub enum Down<'a, 'b> {
    #[serde(borrow = "'b")]
    Plain(&'b [u8]),
    Sealed { nonce: [u8; 3], #[serde(borrow = "'a")] text: &'a str },
}
