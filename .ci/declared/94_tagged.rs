#[derive(Serialize, Deserialize)]
#[serde(rename_all = "camelCase", tag = "type")]
enum E { A { x: u8 }, B }
