type u8 = i16;
// message
struct A { a: u8, b: Vec<u8>, c: [u8; 2] }
