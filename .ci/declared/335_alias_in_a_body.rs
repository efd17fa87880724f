fn f() {
    type u8 = u16;
    let _: u8 = 300;
}
// message
struct A(u8);
