use serde::{Deserialize, Serialize};
use std::collections::BTreeMap;

#[derive(Serialize, Deserialize)]
pub enum Node {
    Leaf(i32),
    List(Vec<Node>),
    Table(BTreeMap<String, Node>),
    Both(Box<(Node, Node)>),
    Maybe(Option<Box<Node>>),
    Of { children: Vec<Entry> },
}

#[derive(Serialize, Deserialize)]
pub struct Entry { pub name: char, pub node: Node }
