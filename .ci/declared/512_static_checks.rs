//! Macros that only look at types which are declared here.
use serde::{Deserialize, Serialize};
use static_assertions::{assert_eq_size, assert_impl_all, const_assert};

#[derive(Clone, Copy, Serialize, Deserialize)]
#[repr(C)]
pub struct Header { pub version: u8, pub length: u16 }

#[derive(Serialize, Deserialize)]
pub struct Packet { pub header: Header, pub body: [u8; BODY] }

const BODY: usize = 6;

assert_impl_all!(Header: Send, Sync, Copy);
assert_eq_size!(Header, [u8; 4]);
const_assert!(BODY % 2 == 0);
const _: () = assert!(core::mem::size_of::<Header>() == 4, "the layout has changed");
const _: () = {
    struct Probe<T>(T);
    assert!(core::mem::align_of::<Probe<Header>>() == 2);
};
impl_message!(Packet = 0x21, Header => "header");
