use crate::elsewhere::Point;
pub mod inner {
    use super::*;
    #[derive(serde::Serialize, serde::Deserialize)]
    pub struct Line { pub from: Point }
}
pub mod other {
    #[derive(serde::Serialize, serde::Deserialize)]
    pub struct Point { pub x: u8 }
}
