use serde::Deserialize;

#[derive(Deserialize)]
#[serde(transparent)]
pub struct Gain { pub value: u16, #[serde(default)] pub note: u8 }

#[cfg_attr(feature = "serde", derive(serde::Deserialize), serde(transparent))]
pub struct Pair<T>(pub T, #[serde(default)] pub u8, pub core::marker::PhantomData<T>);

#[derive(Deserialize)]
pub struct Uses { pub pair: Pair<u8> }
