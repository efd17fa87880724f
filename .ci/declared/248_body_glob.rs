pub mod other { #[derive(serde::Serialize)] pub struct Point { pub x: u8 } }
use other::Point;
fn f() {
    use elsewhere::*;
    #[derive(serde::Serialize)]
    struct Line { from: Point }
}
#[derive(serde::Serialize)]
pub struct Good { pub from: Point }
