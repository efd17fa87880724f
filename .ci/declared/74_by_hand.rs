#[derive(Deserialize)]
pub struct A { a: u8, b: u8 }
impl serde::Serialize for A {
    fn serialize<S: serde::Serializer>(&self, s: S) -> Result<S::Ok, S::Error> { s.serialize_u8(self.a) }
}
