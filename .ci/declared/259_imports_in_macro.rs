use serde::{Deserialize, Serialize};
cfg_if::cfg_if! {
    if #[cfg(feature = "alloc")] {
        use alloc::vec::Vec;
        pub const N: usize = 4;
    } else {
        use crate::fixed::Vec;
        pub const N: usize = 8;
    }
}
#[derive(Serialize, Deserialize)]
pub struct A { pub list: Vec<u8>, pub array: [u8; N] }
