//! Attributes of derives of other crates.
use borsh::BorshSerialize;
use derive_more::TryInto;
use enumset::EnumSetType;
use modular_bitfield::BitfieldSpecifier;
use packed_struct::PackedStruct;
use rkyv::Archive;
use serde::{Deserialize, Serialize};
use snafu::Snafu;

#[derive(BitfieldSpecifier, Serialize, Deserialize)]
#[bits = 2]
pub enum Mode {
    Off,
    Slow,
    Fast,
}

#[derive(EnumSetType, Serialize, Deserialize)]
#[enumset(serialize_repr = "u8")]
pub enum Cap {
    Radio,
    Gps,
}

#[derive(PackedStruct, Serialize, Deserialize)]
#[packed_struct(bit_numbering = "msb0")]
pub struct Packed {
    #[packed_field(bits = "0..=2")]
    pub a: u8,
    pub b: u16,
}

#[derive(Debug, Snafu, Serialize, Deserialize)]
#[snafu(visibility(pub))]
pub enum Error {
    #[snafu(display("busy"))]
    Busy,
    Bad { code: u8 },
}

#[derive(TryInto, Serialize, Deserialize)]
#[try_into(owned, ref)]
pub enum Value {
    Low(u8),
    High(u16),
}

#[derive(Encode, BorshSerialize, Serialize, Deserialize)]
#[bincode(crate = "bincode")]
#[borsh(use_discriminant = true)]
pub enum State {
    Idle = 1,
    Busy = 2,
}

#[derive(Archive, Serialize, Deserialize)]
pub struct Stored {
    #[with(Inline)]
    pub a: u8,
    pub b: u16,
}
