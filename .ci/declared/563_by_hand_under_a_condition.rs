use serde::ser::Serialize as Send;
use serde::{Deserialize, Deserializer, Serialize, Serializer};

#[cfg_attr(feature = "json", derive(Serialize, Deserialize))]
pub struct Id(u32);

#[cfg(not(feature = "json"))]
impl Serialize for Id {
    fn serialize<S: Serializer>(&self, to: S) -> Result<S::Ok, S::Error> { (self.0 as u8).serialize(to) }
}

#[cfg_attr(feature = "json", derive(Serialize, Deserialize))]
pub struct Key<const N: usize>([u8; N]);

#[cfg(not(feature = "json"))]
impl<'de, const N: usize> Deserialize<'de> for Key<{ N }> {
    fn deserialize<D: Deserializer<'de>>(from: D) -> Result<Self, D::Error> { read(from).map(Key) }
}

#[derive(Deserialize)]
pub struct Token(u32);

impl Send for Token {
    fn serialize<S: Serializer>(&self, to: S) -> Result<S::Ok, S::Error> { (self.0 as u8).serialize(to) }
}

#[derive(Deserialize)]
pub struct Packet { pub key: Key<4> }

#[cfg(feature = "json")]
#[derive(Serialize, Deserialize)]
pub struct Node(u32);
#[cfg(not(feature = "json"))]
pub struct Node(u32);

#[cfg(not(feature = "json"))]
impl Serialize for Node {
    fn serialize<S: Serializer>(&self, to: S) -> Result<S::Ok, S::Error> { (self.0 as u8).serialize(to) }
}
