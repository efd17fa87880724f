fn helper() {
    #[derive(serde::Serialize, serde::Deserialize)]
    struct String { a: u8 }
    let _ = String { a: 1 };
}
#[derive(serde::Serialize, serde::Deserialize)]
pub struct Message { pub text: String }
