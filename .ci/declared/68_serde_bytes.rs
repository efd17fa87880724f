use serde_bytes::ByteBuf as Blob;
#[derive(Serialize, Deserialize)]
struct T<'a> {
    #[serde(with = "serde_bytes")] a: Vec<u8>,
    #[serde(borrow, with = "serde_bytes")] b: &'a [u8],
    c: Blob,
}
