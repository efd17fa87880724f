use core::marker::PhantomData;
use serde::{Deserialize, Serialize};
#[derive(Serialize, Deserialize)]
pub struct Tagged<T, U: ?Sized = ()> { pub v: T, #[serde(skip)] pub m: PhantomData<fn() -> U>, pub n: PhantomData<(T, u8)>, pub o: core::marker::PhantomData<*const T> }
pub struct Meters;
#[derive(Serialize, Deserialize)]
pub struct Use { pub d: Tagged<u16, Meters>, pub p: PhantomData<Meters>, pub q: PhantomData<dyn Fn(u8) -> u8> }
