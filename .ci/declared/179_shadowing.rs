use crate::wire::Vec;
use other::Option;
use super::String as Text;
#[derive(Serialize, Deserialize)]
pub struct A { pub v: Vec<u8> }
#[derive(Serialize, Deserialize)]
pub struct B { pub o: Option<u8> }
#[derive(Serialize, Deserialize)]
pub struct C { pub t: Text }
