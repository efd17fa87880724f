// message
struct P<u16> { a: u16 }
// message
struct A { p: P<u8>, n: u16 }
