//! A file that was cut.
// message
struct Level(u8);
// message
struct Status