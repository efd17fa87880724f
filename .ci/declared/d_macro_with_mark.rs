make! {
    // message
    struct A { a: u8 }
}
// message
struct B { b: u8 }
