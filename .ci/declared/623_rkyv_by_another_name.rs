use rkyv as s;
use serde::{Serialize, Serializer};

#[derive(s::Serialize)]
pub struct Level(pub u16);

impl Serialize for Level {}
