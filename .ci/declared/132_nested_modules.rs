pub mod proto {
    use serde::{Deserialize, Serialize};
    pub mod v1 {
        use super::*;
        #[derive(Serialize, Deserialize)]
        pub struct Hello { pub id: u8 }
    }
    pub mod v2 {
        #[derive(serde::Serialize, serde::Deserialize)]
        pub struct HelloTwo { pub id: u16, pub old: super::v1::Hello, pub more: self::inner::More }
        pub mod inner {
            #[derive(serde::Serialize, serde::Deserialize)]
            pub(in crate::proto) struct More(pub(super) u8);
        }
    }
    #[derive(Serialize, Deserialize)]
    pub enum Any { One(v1::Hello), Two(crate::proto::v2::HelloTwo) }
}
