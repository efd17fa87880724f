const M: u8 = (0x81 << 1) >> 1;
// message
struct A([u8; M as usize]);
