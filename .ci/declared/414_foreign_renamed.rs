mod x { pub type L = u8; }
use other_crate::Level as L;
// message
struct A(L);
