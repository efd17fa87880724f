pub mod types {
    #[derive(serde::Serialize, serde::Deserialize)]
    pub enum Level { Low, High(u16) }
    pub const COUNT: usize = 3;
    pub type Id = u32;
}
pub mod messages {
    use super::types::*;
    #[derive(serde::Serialize, serde::Deserialize)]
    pub struct Report { pub id: Id, pub levels: [Level; COUNT] }
}
pub mod other {
    use crate::types::{self, Level as Height};
    #[derive(serde::Serialize, serde::Deserialize)]
    pub struct Other { pub a: Height, pub b: types::Level, pub c: [types::Id; types::COUNT] }
}
