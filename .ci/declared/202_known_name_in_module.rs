pub mod compat {
    use serde::{Deserialize, Serialize};
    #[derive(Serialize, Deserialize)]
    pub struct String { pub length: u8, pub bytes: [u8; 4] }
    #[derive(Serialize, Deserialize)]
    pub struct Vec<T> { pub one: T }
}
use serde::{Deserialize, Serialize};
#[derive(Serialize, Deserialize)]
pub struct Message { pub text: String, pub list: Vec<u8>, pub own: compat::String, pub ours: compat::Vec<u8> }
