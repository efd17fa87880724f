// message
struct Most([(); 4294967295]);
// message
struct More([(); 4294967296]);
// message
struct Word([u8; 0x1_0000_0000]);
