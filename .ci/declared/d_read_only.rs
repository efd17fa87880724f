#[derive(Deserialize)]
struct T {
    #[serde(default, skip_serializing_if = "Option::is_none")]
    a: Option<u8>,
}
