pub const N: usize = 4;
fn helper() {
    const N: usize = 8;
    #[derive(serde::Serialize, serde::Deserialize)]
    struct Inner { d: [u8; N] }
}
#[derive(serde::Serialize, serde::Deserialize)]
pub struct Outer { d: [u8; N] }
