#[derive(Serialize, Deserialize)]
pub struct A { pub a: Option<Option<u8>>, pub b: Option<Vec<Option<(u8, [u16; 2])>>>, pub c: Result<Option<()>, (u8,)>, pub d: Option<Result<u8, ()>> }
