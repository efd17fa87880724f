const _: () = {
    #[derive(serde::Serialize, serde::Deserialize)]
    struct Hidden { a: u8 }
    use core::mem::size_of as _;
};
#[derive(serde::Serialize, serde::Deserialize)]
struct Seen { a: u16 }
impl Seen {
    const LEN: usize = { 2 };
    fn f(self) -> Self { use crate::x::Seen as Other; type T = u8; Seen { a: 1 } }
}
