// message
struct A([bool; u8::BITS as usize]);
// message
struct B([bool; core::u8::MAX as usize]);
// message
struct C([bool; { u32::BITS as usize / 8 }]);
