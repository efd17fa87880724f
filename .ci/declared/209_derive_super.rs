mod prelude { pub use serde::{Deserialize, Serialize}; }
mod a {
    pub use serde::{Deserialize, Serialize};
    mod b {
        #[derive(super::Serialize, super::Deserialize)]
        pub struct A { pub a: u8 }
        #[derive(crate::prelude::Serialize, crate::prelude::Deserialize)]
        pub struct B { pub a: u16 }
        #[derive(::serde::Serialize, ::serde::Deserialize)]
        pub struct C { pub a: u32 }
        #[derive(self::super::Serialize)]
        pub struct D { pub a: u64 }
    }
}
