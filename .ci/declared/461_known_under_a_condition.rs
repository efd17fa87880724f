mod x { pub type Deque = u8; }
#[cfg(feature = "big")]
use heapless::Deque;
use x::*;
// message
pub struct A { d: Deque }
