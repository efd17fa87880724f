//! What stands for parameters is read where it is, by the names of that place.
use serde::{Deserialize, Serialize};

type Raw = u32;
const N: usize = 7;

#[derive(Serialize, Deserialize)]
pub struct Pair<A, B>(pub A, pub B);

pub mod a {
    pub type Raw = u8;
    const N: usize = 2;

    #[derive(serde::Serialize, serde::Deserialize)]
    pub struct Mixed<T, const M: usize>(pub T, pub Raw, pub [u8; M], pub [u8; N]);

    #[derive(serde::Serialize, serde::Deserialize)]
    pub struct Inner(pub super::Pair<Raw, [u8; N]>);
}

#[derive(Serialize, Deserialize)]
pub struct Outer(pub Pair<Raw, [u8; N]>);

#[derive(Serialize, Deserialize)]
pub struct All(pub a::Mixed<Raw, N>, pub a::Mixed<a::Raw, { N + 1 }>, pub Swap<u8, u16>);

#[derive(Serialize, Deserialize)]
pub struct Swap<A, B> {
    pub first: Pair<B, A>,
    pub second: Pair<A, Pair<Option<A>, [B; 2]>>,
}

#[derive(Serialize, Deserialize)]
pub struct Marked<T>(pub u8, pub core::marker::PhantomData<T>);

#[derive(Serialize, Deserialize)]
pub struct Unsent(pub Marked<Nowhere>, pub Marked<Box<dyn Fn()>>);
