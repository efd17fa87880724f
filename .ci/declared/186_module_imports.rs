pub mod v1 {
    use crate::geometry::Point;
    #[derive(Serialize, Deserialize)]
    pub struct Line { pub from: Point }
}
pub mod v2 {
    #[derive(Serialize, Deserialize)]
    pub struct Point { pub x: u8 }
}
