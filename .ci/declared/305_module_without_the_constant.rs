mod u8 { pub const LEAST: usize = 3; }
// message
struct A([bool; u8::MAX as usize], [u8; u8::LEAST]);
