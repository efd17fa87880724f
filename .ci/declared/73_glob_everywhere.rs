use super::*;
use heapless::*;
mod tests { use super::*; }
#[derive(Serialize, Deserialize)]
struct T { name: String<4>, v: Vec<u8, 2>, o: Option<u8> }
