fn f() {
    #[derive(Serialize, Deserialize)]
    struct Inner { a: u64 }
    let _ = Inner { a: 1 };
}
#[derive(Serialize, Deserialize)]
pub struct Outer { a: u8 }
impl Outer {
    fn g(&self) -> u8 {
        #[derive(Serialize)]
        enum Kind { A, B(u8) }
        self.a
    }
}
