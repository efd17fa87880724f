// message
struct Level(u8);
use Level as L;
use self::Level as M;
// message
struct A(L, M);
