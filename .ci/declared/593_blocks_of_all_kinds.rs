const _: () = {
    #[derive(Serialize)]
    struct A(u8);
};
static X: u8 = {
    type Id = u32;
    #[derive(Serialize)]
    struct B(Id);
    0
};
type Id = u16;
impl Y {
    const N: usize = { type Id = u64; #[derive(Serialize)] struct C(Id); 3 };
    fn f() -> impl Fn(u8) -> [u8; 3] {
        match 1 { _ if { #[derive(Serialize)] struct D(Id); true } => {} _ => {} }
        let _ = || { #[derive(Serialize)] struct E(Id, [u8; N]); const N: usize = 2; };
        move |_| [0; Self::N]
    }
}
struct Y;
