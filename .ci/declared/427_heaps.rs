use heapless::binary_heap::{BinaryHeap, Max};
#[derive(serde::Serialize, serde::Deserialize)]
struct A(BinaryHeap<u8, Max, 8>);
