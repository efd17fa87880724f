// message
struct u32(u8);
// message
struct A(LE<u32>);
