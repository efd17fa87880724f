pub mod line {
    use crate::geometry::*;
    use serde::{Deserialize, Serialize};
    #[derive(Serialize, Deserialize)]
    pub struct Line { pub from: Point }
}
pub mod pixel {
    use serde::{Deserialize, Serialize};
    #[derive(Serialize, Deserialize)]
    pub struct Point { pub x: u8 }
}
