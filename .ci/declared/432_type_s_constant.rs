pub const LEN: usize = 2;
struct Own;
impl Own { pub const LEN: usize = 7; }
// message
struct A([u8; Own::LEN]);
