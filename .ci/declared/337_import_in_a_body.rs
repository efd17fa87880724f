mod own { pub struct u16(pub bool); }
fn f() {
    use own::u16;
    // message
    struct A(u16);
}
// message
struct B(u16);
