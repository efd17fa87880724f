const M: u16 = 0x81 << 1;
// message
struct A([u8; M as usize]);
// message
struct B([u8; 1 << 2 + 2]);
// message
struct C([u8; 1 + 2 * 3]);
