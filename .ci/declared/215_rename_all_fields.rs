use serde::{Deserialize, Serialize};
#[derive(Serialize, Deserialize)]
#[serde(rename_all = "SCREAMING_SNAKE_CASE", rename_all_fields = "camelCase", deny_unknown_fields)]
pub enum E {
    #[serde(alias = "old", rename(serialize = "a", deserialize = "b"))]
    LongName { field_name: u8, #[serde(default = "two")] other_name: u16 },
    #[serde(rename_all = "kebab-case")]
    Two { x_y: bool },
}
#[derive(Serialize, Deserialize)]
#[serde(transparent, bound = "T: Serialize", crate = "::serde")]
pub struct W<T>(T);
#[derive(Serialize, Deserialize)]
pub struct U { w: W<u8>, #[serde(default, borrow)] e: E }
