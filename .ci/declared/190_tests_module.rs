use std::collections::BTreeMap;
#[derive(Serialize, Deserialize)]
pub struct Point { pub x: u8, pub m: BTreeMap<u8, u8> }
#[cfg(test)]
mod tests {
    use super::*;
    use crate::points::Point as P;
    use proptest::prelude::*;
    const N: usize = 3;
    type Id = u64;
    #[test]
    fn f() { use super::Point; let p = Point { x: 1 }; }
}
