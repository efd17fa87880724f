//! Marks of the direction of writing, U+200E and U+200F, between words, as editors of bidirectional texts write them.
pub mod old {
    pub type Level = u8;
}

pub mod m {
    use super::old::*;

    pub type‎ Level‏ = u16;

    #[derive(serde::Serialize)]
    pub struct Frame {
        pub level: Level,
    }
}
