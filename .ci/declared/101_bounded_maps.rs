use heapless::{FnvIndexMap, LinearMap};
#[derive(Serialize, Deserialize, PartialEq, Eq, PartialOrd, Ord)]
enum Key { A, B }
#[derive(Serialize, Deserialize)]
struct T { a: FnvIndexMap<u8, u16, 4>, b: LinearMap<Key, bool, 2> }
