// Nachricht: über 😀
#[derive(Serialize, Deserialize)]
pub struct Größe { pub höhe: u16, pub text: String }
const T: &str = "😀   #";
#[derive(Serialize, Deserialize)]
pub enum Art { Ä, B }
