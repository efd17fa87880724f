#[derive(Serialize, Deserialize)]
pub struct T { pub a: core::ops::RangeInclusive<u32>, pub b: std::net::Ipv6Addr, pub c: std::net::SocketAddrV4, pub d: std::time::SystemTime, pub e: std::ops::Bound<u8>,
    pub f: core::cmp::Reverse<u8>, pub g: std::path::PathBuf, pub h: std::ffi::CString, pub i: core::time::Duration, pub j: core::ops::RangeFrom<u8>, pub k: std::collections::BinaryHeap<u8>, pub l: std::sync::Mutex<u8>, pub m: std::num::Saturating<u8> , pub n: std::collections::LinkedList<u8>, pub o: std::cell::OnceCell<u8>, pub p: std::rc::Weak<u8>, pub q: std::sync::RwLock<u8> }
