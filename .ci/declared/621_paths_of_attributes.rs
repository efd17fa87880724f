//! A path is a macro, which may rewrite the declaration, though a derive or a helper begins with its first word.
use serde::{Deserialize, Serialize};

#[deku::deku_derive(DekuRead, DekuWrite)]
#[derive(Serialize, Deserialize)]
pub struct Header {
    #[deku(temp)]
    pub count: u8,
    pub level: u16,
}

#[bitfield_struct::bitfield(u8)]
#[derive(Serialize, Deserialize, bitfield_struct::Specifier)]
pub struct Flags {
    #[bits(4)]
    pub low: u8,
    #[bits(4)]
    pub high: u8,
}

#[rustfmt::skip]
#[diagnostic::on_unimplemented(message = "no level")]
#[derive(Serialize, Deserialize)]
pub struct Level(pub u16);
