//! A derive that turns a number into a variant has no say in what is sent.
use num_enum::{FromPrimitive, IntoPrimitive, TryFromPrimitive};
use serde::{Deserialize, Serialize};

#[derive(Clone, Copy, Debug, Eq, PartialEq, IntoPrimitive, FromPrimitive, Serialize, Deserialize)]
#[repr(u16)]
pub enum Opcode {
    Nop = 0x0100,
    #[num_enum(alternatives = [0x0201, 0x0202])]
    Jump = 0x0200,
    #[num_enum(catch_all)]
    Other(u16),
    #[num_enum(default)]
    Last = 0xffff,
}

#[derive(Clone, Copy, IntoPrimitive, TryFromPrimitive, strum::EnumIter, strum::Display, Serialize, Deserialize)]
#[num_enum(error_type(name = Bad, constructor = Bad::new))]
#[strum(serialize_all = "kebab-case")]
#[repr(i8)]
pub enum Gear { Reverse = -1, Neutral, #[strum(to_string = "first")] First }
