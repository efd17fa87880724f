//! Newtypes by a macro of the crate: by `struct` in its call, and by the name alone.
use serde::{Deserialize, Serialize};

macro_rules! unit {
    ($(#[$meta:meta])* $vis:vis struct $name:ident($of:ty);) => {
        $(#[$meta])* #[derive(Clone, Copy, Serialize, Deserialize)] $vis struct $name(pub $of);
    };
}

macro_rules! id {
    ($name:ident, $of:ty) => { #[derive(Serialize, Deserialize)] pub struct $name(pub $of); };
}

unit! {
    /// In millivolts.
    pub struct Volts(i16);
}
id!(NodeId, u32);

pub mod old { pub type Volts = u8; pub type NodeId = u8; }

#[derive(Serialize, Deserialize)]
pub struct Reading { pub volts: Volts }

#[derive(Serialize, Deserialize)]
pub struct Hello { pub node: NodeId }
