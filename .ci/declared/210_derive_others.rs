use rkyv::Archive;
#[derive(Archive, rkyv::Serialize, rkyv::Deserialize)]
pub struct NotOurs { pub a: u8 }
#[derive(serde::Serialize)]
pub struct Ours { pub a: u16 }
