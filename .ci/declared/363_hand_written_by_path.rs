mod types {
    #[derive(Serialize)]
    pub struct A { pub a: u8, pub b: u16 }
}
impl<'de> serde::Deserialize<'de> for crate::types::A {
    fn deserialize<D: Deserializer<'de>>(from: D) -> Result<Self, D::Error> { todo!() }
}
