use serde::{Deserialize, Serialize};
use core::num::NonZeroU8;
#[derive(Serialize, Deserialize)]
pub struct B { pub a: ! }
#[derive(Serialize, Deserialize)]
pub struct C { pub a: NonZeroU8 }
#[derive(Serialize, Deserialize)]
pub struct D { pub a: core::convert::Infallible }
#[derive(Serialize, Deserialize)]
pub struct E { pub a: f16 }
