use serde_big_array::BigArray;
#[derive(Serialize, Deserialize)]
struct T { #[serde(with = "BigArray")] page: [u8; 40], n: u16 }
