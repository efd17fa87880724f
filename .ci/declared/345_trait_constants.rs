trait Sized2 { const SIZE: usize; type u8; }
impl Sized2 for A { const SIZE: usize = 3; type u8 = u16; }
// message
struct A { a: [u8; 3] }
// message
struct B { a: [u8; <A as Sized2>::SIZE] }
// message
struct C { a: [u8; A::SIZE] }
