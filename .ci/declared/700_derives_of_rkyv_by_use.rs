use rkyv::{Archive, Deserialize, Serialize};
#[derive(Archive, Serialize, Deserialize)]
pub struct Kept { pub a: u8 }
#[derive(Archive, Serialize, Deserialize, serde::Serialize, serde::Deserialize)]
pub struct Both { pub a: u8 }
#[derive(serde::Serialize)]
pub struct Sent { pub kept: Both }
// message
#[derive(Archive, Serialize)]
pub struct Marked { pub a: u16 }
fn f() {
    use serde::Serialize;
    #[derive(Serialize)]
    struct Inner(u8);
}
