//! Macros of the file that are called as checks, but make what they check.
use serde::Serialize;

macro_rules! assert_id {
    ($name:ident, $of:ty) => {
        pub type $name = $of;
    };
}

macro_rules! const_assert_count {
    ($name:ident, $count:expr) => {
        pub const $name: usize = $count;
    };
}

pub type DeviceId = u32;
pub const GAINS: usize = 4;

pub mod a {
    use super::*;

    assert_id!(DeviceId, u8);
    const_assert_count!(GAINS, 2);

    /// What a device says first.
    #[derive(Serialize)]
    pub struct Hello {
        // a byte
        pub id: DeviceId,
        pub gains: [u8; GAINS],
    }
}
