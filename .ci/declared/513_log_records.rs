use core::fmt;
use serde::{Deserialize, Serialize};

#[derive(Clone, Copy, PartialEq, Eq, PartialOrd, Ord, Serialize, Deserialize)]
pub enum Level { Error = 1, Warn, Info, Debug, Trace }

#[derive(Serialize)]
pub struct Record<'a> {
    pub level: Level,
    pub target: &'static str,
    pub line: Option<u32>,
    pub args: &'a str,
    pub values: &'a [(&'static str, Value<'a>)],
}

#[derive(Clone, Copy, Serialize)]
pub enum Value<'a> { Bool(bool), I64(i64), F64(f64), Str(&'a str), List(&'a [Value<'a>]), Missing }

impl fmt::Display for Level {
    fn fmt(&self, f: &mut fmt::Formatter<'_>) -> fmt::Result {
        f.write_str(match self { Level::Error => "E", _ => "?" })
    }
}
