use serde::{Deserialize, Deserializer, Serialize, Serializer};

#[derive(Deserialize)]
pub struct Padded<T, const N: usize> { pub value: T, pub pad: [u8; N] }

impl<T: Serialize, const N: usize> Serialize for Padded<T, N>
where
    [u8; N]: Serialize,
{
    fn serialize<S: Serializer>(&self, to: S) -> Result<S::Ok, S::Error> { self.value.serialize(to) }
}

#[derive(serde::Serialize)]
pub struct Token(u32);

impl<'de> serde::de::Deserialize<'de> for self::Token {
    fn deserialize<D: Deserializer<'de>>(from: D) -> Result<Self, D::Error> { u8::deserialize(from).map(|it| Token(it.into())) }
}

#[derive(Deserialize)]
pub struct Packet { pub body: Padded<u32, 2> }
