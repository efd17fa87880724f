use serde::{Deserialize, Serialize};
#[derive(Serialize, Deserialize)]
pub struct Deep { pub a: Vec<Option<Result<Vec<Vec<u8>>, Option<Option<i16>>>>> , pub b: Box<Vec<(u8, (i8, (bool,)), ())>> }
