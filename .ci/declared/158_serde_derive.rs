use serde_derive::{Deserialize, Serialize};
#[derive(serde_derive::Serialize, serde_derive::Deserialize)]
pub struct A(u8);
#[derive(::serde::Serialize, ::serde::Deserialize)]
pub struct B { pub a: ::std::string::String, pub b: ::core::option::Option<u8> }
