pub struct str(u8);
// message
struct A<'a> { s: &'a str }
