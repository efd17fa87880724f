use crate::types::*;
#[derive(Serialize, Deserialize)]
struct T { buf: ByteBuf, name: String }
