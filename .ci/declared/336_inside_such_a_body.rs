fn f() {
    type u8 = u16;
    // message
    struct A(u8);
}
