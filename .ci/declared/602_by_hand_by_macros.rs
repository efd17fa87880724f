//! Macros that implement one side for what they are handed.
use serde::{Deserialize, Serialize, Serializer};

macro_rules! as_byte {
    ($($name:ty),*) => {
        $(
            impl Serialize for $name {
                fn serialize<S: Serializer>(&self, to: S) -> Result<S::Ok, S::Error> {
                    to.serialize_u8(self.0 as u8)
                }
            }
        )*
    };
}

macro_rules! small {
    ($name:ident) => {
        as_byte!($name);
    };
}

#[derive(Deserialize)]
pub struct Level(pub u16);

as_byte!(Level);

#[derive(Deserialize)]
pub struct Gain(pub u16);

small!(Gain);

#[derive(Deserialize)]
pub struct Unit(pub u16);

serde_plain::derive_serialize_from_display!(Unit);

#[derive(Deserialize)]
pub struct Order(pub u16);
