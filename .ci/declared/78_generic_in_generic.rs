#[derive(Serialize, Deserialize)]
struct Pair<A, B> { a: A, b: B }
#[derive(Serialize, Deserialize)]
struct Use { p: Pair<Option<u8>, [Pair<u8, bool>; 2]>, q: Pair<Pair<u16, u16>, ()> }
