mod v1 { pub type Raw = u8; pub type Id = Raw; }
mod v2 { pub type Raw = u16; pub type Id = Raw; }
use v1::*;
// message
pub struct Ack { id: Id }
