type u16 = core::primitive::u32;
// message
struct A { a: LE<u16>, b: BE<i16> }
