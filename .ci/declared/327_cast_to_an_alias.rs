type u8 = u16;
// message
struct A([bool; 300 as u8 as usize]);
