use std::collections::BTreeMap;
// message
struct A {
    outcome: Result<
        u16,
        bool,
    >,
    list: Vec<
        u8,
    >,
    map: BTreeMap<
        u8,
        Option<
            u16,
        >,
    >,
    boxed: Box<u8,>,
    pair: Pair<
        u8,
        2,
    >,
}
// message
struct Pair<T, const N: usize,> { all: [T; N] }
