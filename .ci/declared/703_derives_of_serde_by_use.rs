extern crate serde as ser;
mod prelude { pub use serde::{Deserialize, Serialize}; }
mod all { use serde::*; #[derive(Serialize)] pub struct A(u8); }
mod renamed { use serde_crate::{Deserialize, Serialize}; #[derive(Serialize, Deserialize)] pub struct B(u8); }
mod own { use crate::prelude::*; #[derive(Serialize)] pub struct C(u8); }
mod path { use crate::prelude::Serialize; #[derive(Serialize)] pub struct D(u8); }
mod passed { use rocket::serde::{Deserialize, Serialize}; #[derive(Serialize, Deserialize)] pub struct E(u8); }
mod called { use ser::Serialize; #[derive(Serialize)] pub struct F(u8); }
mod absolute { use ::serde::{ser::Serializer, Serialize}; #[derive(Serialize)] pub struct G(u8); }
mod derived { use serde_derive::Serialize; #[derive(Serialize)] pub struct H(u8); }
mod beside { use rkyv::*; use serde::Serialize; #[derive(Archive, Serialize)] pub struct I(u8); }
mod near { use super::prelude; use prelude::Serialize; #[derive(Serialize)] pub struct J(u8); }
mod preludes { use device::prelude::*; #[derive(Serialize)] pub struct K(u8); }
mod same { use serde::Serialize as Serialize; #[derive(Serialize)] pub struct L(u8); }
mod body { fn f() { use serde::Serialize; #[derive(Serialize)] struct M(u8); } }
