#[derive(Serialize, Deserialize)]
struct T {
    #[serde(with = "serde_bytes")] key: [u8; 4],
}
