use serde::{Deserialize, Serialize, Serializer};

#[derive(Serialize, Deserialize)]
#[strange]
pub struct Framed<T, const N: usize> { pub at: [u8; N], pub of: T }

#[derive(Serialize, Deserialize)]
pub struct Uses { pub a: Framed<u8, 2> }

#[derive(Deserialize)]
pub struct Sent<'a, T> { pub name: &'a str, pub of: T }

impl<T> Serialize for Sent<'_, T> {
    fn serialize<S: Serializer>(&self, to: S) -> Result<S::Ok, S::Error> { 0u8.serialize(to) }
}

#[derive(Deserialize)]
pub struct UsesSent<'a> { pub a: Sent<'a, u8> }
