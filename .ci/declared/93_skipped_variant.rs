#[derive(Serialize, Deserialize)]
enum E { A, #[serde(skip)] B, C }
