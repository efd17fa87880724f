//! Aliases with parameters: of types, of lengths, of both, in other modules, and in types that hold themselves.
use serde::{Deserialize, Serialize};
use std::borrow::Cow;

pub type Result<T, E = Error> = core::result::Result<T, E>;
pub type Reply<T> = core::result::Result<T, Error>;
pub type Ring<T, const N: usize> = heapless::Vec<Pair<T>, { N }>;
pub type Pair<T> = (T, Option<T>);
pub type Grid<T, const W: usize, const H: usize> = [[T; W]; H];
pub type Lent<'a, T: 'a> = Cow<'a, [T]>;
pub type Link<T> = Option<Box<T>>;
pub type Swap<A, B> = (B, A);
pub const LENGTH: usize = 2;

pub mod wire {
    pub struct Unsent;
    #[derive(serde::Serialize, serde::Deserialize)]
    pub struct Id(pub u8);
    pub type With<T> = (Id, T);
    // its parameter hides what is around it
    pub type Hiding<Id> = (Id, super::Id);
    pub const LENGTH: usize = 3;
    pub type Few<T> = [T; LENGTH];
}

#[derive(Serialize, Deserialize)]
pub struct Id(pub u32);

#[derive(Serialize, Deserialize)]
pub enum Error {
    Busy,
    Code(u16),
}

#[derive(Serialize, Deserialize)]
pub struct Answers {
    pub read: Reply<u8>,
    pub written: Result<bool, Error>,
    pub ring: Ring<u8, 3>,
    pub grid: Grid<u8, 3, LENGTH>,
    pub swapped: Swap<Swap<u8, u16>, u32>,
}

#[derive(Serialize, Deserialize)]
pub struct Names {
    pub with: wire::With<Id>,
    pub hiding: wire::Hiding<bool>,
    pub few: wire::Few<Id>,
}

#[derive(Serialize, Deserialize)]
pub enum Tree<T> {
    Leaf(T),
    Two(Link<Self>, Link<Tree<T>>),
    More { of: Pair<T> },
}

#[derive(Serialize, Deserialize)]
pub struct Kept<'a> {
    pub tree: Tree<u16>,
    pub lent: Lent<'a, i16>,
}

#[derive(Serialize, Deserialize)]
pub struct Grown<T> {
    pub of: T,
    pub next: Link<Known>,
}

pub type Doubled<T> = Grown<(T, u8)>;
pub type Known = Doubled<u8>;

#[derive(Serialize, Deserialize)]
pub struct Last(pub Known);
