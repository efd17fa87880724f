use core::time::Duration;
#[derive(Serialize, Deserialize)]
struct T { d: Duration, k: u8 }
