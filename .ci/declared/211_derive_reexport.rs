#[derive(my_crate::export::serde::Serialize, my_crate::export::serde::Deserialize)]
pub struct A { pub a: u8 }
#[derive(postcard_rpc::export::Serialize)]
pub struct B { pub a: u8 }
