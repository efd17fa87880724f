use std::collections::{HashMap, HashSet};
#[derive(Serialize, Deserialize)]
struct T { m: HashMap<u8, u16, BuildHasherDefault<FxHasher>>, s: HashSet<u8, FxBuildHasher> }
