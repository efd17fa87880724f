use serde::{Deserialize, Serialize};
use Level::*;
use self::Level::{High as H};
#[derive(Serialize, Deserialize)]
pub enum Level { Low, High }
#[derive(Serialize, Deserialize)]
pub struct A { pub level: Level, pub text: String }
