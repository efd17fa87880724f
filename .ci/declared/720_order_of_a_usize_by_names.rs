use serde::{Deserialize, Serialize};

type Address = usize;

#[derive(Serialize, Deserialize)]
pub struct A {
    #[serde(with = "postcard::fixint::le")]
    pub c: u64,
    #[serde(with = "postcard::fixint::le")]
    pub a: Address,
}
#[derive(Serialize, Deserialize)] pub struct B<T>(#[serde(with = "postcard::fixint::be")] pub T);

#[derive(Serialize, Deserialize)]
pub struct C(pub postcard::fixint::LE<Address>, pub B<isize>);
