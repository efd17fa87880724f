mod prelude { pub use serde_bytes::ByteBuf; }
mod store {
    // message
    pub struct ByteBuf { page: u8 }
}
use prelude::*;
// message
pub struct Write { data: ByteBuf }
