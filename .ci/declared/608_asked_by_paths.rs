//! Types of one name, in a module, in the file and in a body.
use serde::{Deserialize, Serialize};

pub mod v1 {
    use serde::Serialize;

    #[derive(Serialize)]
    pub struct Line(pub bool);
}

#[derive(Serialize, Deserialize)]
pub struct Line(pub u16, pub u16);

pub fn run() {
    #[derive(Serialize)]
    struct Line(u8);
}
