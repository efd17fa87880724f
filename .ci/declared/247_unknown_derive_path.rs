#[derive(postcard_rpc::export::serde::Serialize, Clone)]
pub struct A { pub a: u8 }
#[derive(miniserde::Serialize)]
pub struct B { pub a: u8 }
#[derive(serde::Serialize, rkyv::Serialize)]
pub struct C { pub a: u8 }
