use heapless::{Deque, LinearMap, String, Vec};
// What heapless 0.9 counts by is a third parameter, or a second.
#[derive(Serialize, Deserialize, Clone, Debug)]
pub struct Short {
    pub name: String<15, u8>,
    pub data: Vec<u16, 4, u8>,
    pub last: Deque<bool, 3>,
    pub by: LinearMap<u8, i8, 2>,
}
