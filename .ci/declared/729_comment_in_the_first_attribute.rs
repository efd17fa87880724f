#!/* of the whole file */[allow(dead_code)] pub type Level = u16;
use kept::*;

#[derive(serde::Serialize)]
pub struct Frame {
    pub level: Level,
}

pub mod kept {
    pub type Level = u8;
}
