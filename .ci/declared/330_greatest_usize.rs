// message
struct A([bool; usize::MAX / 0x1000_0000_0000_0000]);
