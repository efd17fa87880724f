#[derive(Serialize, Deserialize)]
pub struct Msg<T = u8> { pub t: T }
#[derive(Serialize, Deserialize)]
pub struct Use { pub m: Msg<u16>, pub n: Msg }
