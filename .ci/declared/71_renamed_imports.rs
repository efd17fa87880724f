use heapless::{String as HString, Vec as HVec};
use core::option::Option as Maybe;
#[derive(Serialize, Deserialize)]
struct T { name: HString<8>, list: HVec<u16, 2>, maybe: Maybe<u8> }
