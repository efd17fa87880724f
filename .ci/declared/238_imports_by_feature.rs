#[cfg(feature = "std")]
use std::{string::String, vec::Vec};
#[cfg(not(feature = "std"))]
use alloc::{string::String, vec::Vec};
use serde::{Deserialize, Serialize};
#[cfg(feature = "a")]
use crate::a::Point;
#[cfg(not(feature = "a"))]
use crate::b::Point;
#[derive(Serialize, Deserialize)]
pub struct A { pub s: String, pub v: Vec<u16> }
#[derive(Serialize, Deserialize)]
pub struct B { pub p: Point }
