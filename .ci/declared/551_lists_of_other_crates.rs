use serde::{Deserialize, Serialize};
use smallvec::SmallVec;
use tinyvec::ArrayVec;

#[derive(Serialize, Deserialize)]
pub struct Lists {
    pub a: SmallVec<[u8; 4]>,
    pub b: ArrayVec<[u8; 4]>,
    pub c: indexmap::IndexMap<u8, u8>,
    pub d: heapless::IndexMap<u8, u8, Hasher, 4>,
    pub e: heapless::HistoryBuffer<u8, 4>,
    pub f: bytes::Bytes,
    pub g: fixed::types::I16F16,
    pub h: arrayvec::ArrayVec<[u8; 4]>,
}
