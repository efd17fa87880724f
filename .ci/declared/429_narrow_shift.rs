const M: u8 = 0x81u8 << 1;
// message
struct A([u8; M as usize]);
