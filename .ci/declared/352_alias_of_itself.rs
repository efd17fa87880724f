type u8 = u8;
// message
struct A(u8);
