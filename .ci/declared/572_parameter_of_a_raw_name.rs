// A parameter with a raw name is meant by its plain name too.
pub struct T(u64);
pub mod U {
    pub type Item = u8;
}
#[derive(Serialize)]
pub struct A<r#T>(T, r#T);
#[derive(Serialize)]
pub struct Use {
    a: A<u16>,
}
