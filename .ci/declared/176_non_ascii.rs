#[derive(Serialize, Deserialize)]
pub struct Меж { pub höhe: u16, pub 名前: String, pub r#type: Ünï }
#[derive(Serialize, Deserialize)]
pub enum Ünï { Ä, Ö(u8), Ü { ß: u8 } }
