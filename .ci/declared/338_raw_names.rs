type r#u8 = u16;
// message
struct A(u8);
// message
struct B(r#u8, r#i32);
