#[derive(Serialize, Deserialize)]
#[serde(remote = "other::Level")]
pub struct LevelDef(u8);
#[derive(Serialize, Deserialize)]
pub struct A {
    #[serde(with = "LevelDef")]
    pub a: other::Level,
    #[serde(serialize_with = "f", deserialize_with = "g")]
    pub b: u8,
}
#[derive(Serialize, Deserialize)]
#[serde(from = "u8", into = "u8")]
pub struct B(bool);
#[derive(Deserialize)]
#[serde(try_from = "u16")]
pub struct C(u16);
#[derive(Serialize, Deserialize)]
pub enum D {
    A,
    #[serde(other)]
    B,
    #[serde(untagged)]
    C(u8),
    #[serde(skip)]
    D,
}
#[derive(Serialize)]
#[serde(into = "Wire")]
pub struct E(u8);
