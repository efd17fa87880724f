#[derive(Serialize, Deserialize)]
#[serde(remote = "other::Duration")]
struct DurationDef { secs: u64, nanos: u32 }
