#![allow(non_snake_case)]
// The module has a parameter's name, which comes before it.
pub trait Of { type Item; }
pub mod U {
    pub type Item = u8;
}
#[derive(Serialize)]
pub struct B<U: Of>(U::Item);
#[derive(Serialize)]
pub struct Use {
    b: B<u16>,
}
