// message
struct P<const u8: usize> { a: [u8; u8] }
// message
struct A { p: P<2>, q: P<3> }
