//! `Self` of a type with parameters, and as what stands for one.
use serde::{Deserialize, Serialize};

#[derive(Serialize, Deserialize)]
pub struct Node<T> {
    pub value: T,
    pub next: Option<Box<Self>>,
}

#[derive(Serialize, Deserialize)]
pub struct Held<T>(pub Option<Box<T>>, pub u8);

#[derive(Serialize, Deserialize)]
pub enum Tree {
    Leaf(u16),
    Held(Held<Self>),
}

#[derive(Serialize, Deserialize)]
pub struct Log {
    pub nodes: Node<u16>,
    pub tree: Tree,
}
