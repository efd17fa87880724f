//! Types with derives of `derive_more`, `derive-where` and `atat`, whose helpers are called otherwise than they.
use derive_more::{AsRef, Debug, DerefMut, FromStr};
use derive_where::derive_where;
use serde::{Deserialize, Serialize};

#[derive(Serialize, Deserialize, AsRef, Debug, DerefMut)]
#[as_ref(forward)]
#[debug("level {_0}")]
#[deref_mut(forward)]
pub struct Level(#[debug(skip)] u16);

#[derive(Serialize, Deserialize)]
#[derive_where(Clone, Copy; T)]
pub struct Framed<T> {
    pub at: u8,
    #[derive_where(skip)]
    pub of: T,
}

#[derive(Serialize, Deserialize, atat::atat_derive::AtatEnum, Clone, Copy)]
#[at_enum(u8)]
pub enum Registration {
    #[at_arg(value = 0)]
    Home = 0,
    #[at_arg(value = 5)]
    Roaming = 5,
}

#[derive(Serialize, Deserialize)]
pub struct Status {
    pub level: Framed<Level>,
    pub at: Registration,
}
