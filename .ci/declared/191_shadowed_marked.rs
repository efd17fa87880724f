pub mod a { #[derive(Serialize, Deserialize)] pub struct P(pub u8); }
pub mod b {
    pub struct P(pub u64);
    impl serde::Serialize for P { fn serialize<S: serde::Serializer>(&self, s: S) -> Result<S::Ok, S::Error> { s.serialize_u64(self.0) } }
    #[derive(Serialize)]
    pub struct H { pub p: P }
}
