macro_rules! levels { () => { pub struct Level(u8); }; }
levels!();
// message
struct A(Level);
