pub type Result<T> = core::result::Result<T, Error>;
#[derive(Serialize, Deserialize)]
pub enum Error { Busy, Code(u8) }
#[derive(Serialize, Deserialize)]
pub struct A { a: Result<u8> }
#[derive(Serialize, Deserialize)]
pub struct B { b: core::result::Result<u8, Error> }
