type u8 = u16;
const N: usize = u8::MAX as usize;
// message
struct A([bool; N]);
