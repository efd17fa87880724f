use heapless::{String as Text, Vec as List};
// message
struct A(Text<8>, List<u8, 4>);
