//! Paths from the root, from here and from above, to one name.
use serde::{Deserialize, Serialize};

pub type Stamp = u32;
pub const WIDTH: usize = 1;

pub mod radio {
    pub type Stamp = u16;
    pub const WIDTH: usize = 2;

    pub mod lora {
        use serde::{Deserialize, Serialize};
        pub type Stamp = i8;
        pub const WIDTH: usize = 3;

        #[derive(Serialize, Deserialize)]
        pub struct Times {
            pub a: Stamp,
            pub b: self::Stamp,
            pub c: super::Stamp,
            pub d: super::super::Stamp,
            pub e: crate::Stamp,
            pub f: crate::radio::Stamp,
            pub g: crate::radio::lora::Stamp,
            pub h: [u8; WIDTH * super::WIDTH + crate::WIDTH],
        }
    }
}
