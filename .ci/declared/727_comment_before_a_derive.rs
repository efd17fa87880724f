//! A comment in a list of derives, of which one is rkyv's.
use rkyv::Serialize;

#[derive(
    // with = everything that is archived
    Serialize,
)]
pub struct Reading {
    pub at: u16,
}
