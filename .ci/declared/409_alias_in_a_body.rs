fn f() {
    type Id = u16;
    #[derive(serde::Serialize)]
    struct L(Id);
}
// message
struct A(u8);
