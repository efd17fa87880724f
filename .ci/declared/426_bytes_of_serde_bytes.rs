use serde_bytes::{ByteArray, Bytes};
#[derive(serde::Serialize, serde::Deserialize)]
struct A<'a>(#[serde(borrow)] &'a Bytes);
#[derive(serde::Serialize, serde::Deserialize)]
struct B(ByteArray<4>, serde_bytes::ByteBuf);
