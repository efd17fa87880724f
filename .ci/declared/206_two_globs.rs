pub mod a { #[derive(serde::Serialize, serde::Deserialize)] pub struct P(pub u8); }
pub mod b { #[derive(serde::Serialize, serde::Deserialize)] pub struct Q(pub u16); }
pub mod c {
    use super::a::*;
    use super::b::*;
    #[derive(serde::Serialize, serde::Deserialize)]
    pub struct Both { pub p: P, pub q: Q }
}
