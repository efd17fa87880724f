mod x { pub type Deque = u8; }
use heapless::*;
use x::*;
// message
struct A(Deque);
