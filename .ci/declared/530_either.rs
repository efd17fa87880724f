use serde::{Deserialize, Serialize};

#[derive(Serialize, Deserialize)]
pub enum Either<L, R = L> { Left(L), Right(R) }

#[derive(Serialize, Deserialize)]
pub enum OneOrMany<T> { One(T), Many(Vec<T>) }

#[derive(Serialize, Deserialize)]
pub enum Tree<K, V> { Leaf, Node(Box<Branch<K, V>>) }

#[derive(Serialize, Deserialize)]
pub struct Branch<K, V> { pub key: K, pub value: V, pub below: [Tree<K, V>; 2] }

#[derive(Serialize, Deserialize)]
pub struct Query {
    pub by: Either<OneOrMany<u16>, Either<bool, ()>>,
    pub index: Tree<i8, OneOrMany<char>>,
}
