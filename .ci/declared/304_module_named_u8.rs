mod u8 { pub const MAX: usize = 3; }
// message
struct A { n: [u8; u8::MAX], m: u8 }
