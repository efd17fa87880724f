#[derive(Serialize, Deserialize)]
#[serde(rename_all(serialize = "camelCase", deserialize = "snake_case"), rename = "X", expecting = "an x", crate = "ser", variant_identifier)]
pub enum A { B }
#[derive(Serialize, Deserialize)]
#[serde(transparent)]
pub struct T { pub a: u16, #[serde(skip)] pub p: PhantomData<u8> }
#[derive(Serialize, Deserialize)]
pub struct R { #[serde(rename(serialize = "a", deserialize = "b"), default = "path::to", borrow = "'a", bound(serialize = "", deserialize = ""))] pub a: u8 }
#[derive(Serialize, Deserialize)]
pub enum V { #[serde(untagged)] A(u8), #[serde(borrow)] B(u8), #[serde(alias = "x", rename = "y")] C, #[serde(with = "m")] D(u8) }
