pub mod a {
    #[derive(serde::Serialize)]
    struct String(u8);
    #[derive(serde::Serialize)]
    pub struct Own { s: String }
}
pub mod b {
    use super::a::*;
    #[derive(serde::Serialize)]
    pub struct B { pub s: String, pub own: Own }
}
