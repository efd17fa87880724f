use core::marker::PhantomData;
use serde::{Deserialize, Serialize};

#[derive(Serialize, Deserialize)]
#[serde(transparent)]
pub struct Meters(pub u16);

#[derive(Serialize, Deserialize)]
#[serde(transparent)]
pub struct Of<T> { pub value: u32, #[serde(skip)] pub note: u8, pub unit: core::marker::PhantomData<T> }

#[derive(Serialize, Deserialize)]
pub struct Gain { pub at: Meters, pub of: Of<u8>, pub none: PhantomData<u64> }
