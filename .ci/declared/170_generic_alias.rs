pub type Pair<T> = (T, T);
pub type Small = Vec<u8>;
pub type Bytes8 = [u8; 8];
pub type Map = std::collections::BTreeMap<u8, Bytes8>;
#[derive(Serialize, Deserialize)]
pub struct A { pub a: Small, pub b: Bytes8, pub c: Map }
#[derive(Serialize, Deserialize)]
pub struct B { pub a: Pair<u8> }
