bitflags::bitflags! {
    #[derive(Serialize, Deserialize)]
    pub struct Flags: u8 { const A = 1; }
}
#[derive(Serialize, Deserialize)]
struct A { a: u8 }
