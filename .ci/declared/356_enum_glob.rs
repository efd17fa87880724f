// message
pub enum Kind { Small, Large(u16) }
use Kind::*;
use self::Kind as K;
// message
struct A { k: Kind, l: K }
