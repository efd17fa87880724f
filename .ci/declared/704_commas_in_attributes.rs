use serde::Serialize;
#[derive(Serialize)]
#[doc = "first", unknown]
pub struct A {
    #[doc = "first", serde(skip)]
    pub a: u8,
    pub b: u8,
}
