#[derive(rkyv::Archive, rkyv::Serialize, rkyv::Deserialize)]
pub struct Kept { pub a: u8 }
#[derive(rkyv::Serialize, serde::Serialize, serde::Deserialize)]
pub struct A { pub a: u8 }
#[derive(my::serde::Serialize, my::serde::Deserialize)]
pub struct B { pub a: u8 }
