mod archive {
    use rkyv::{Archive, Serialize};
    #[derive(Archive, Serialize)]
    pub struct Kept { pub a: u8 }
    pub mod inner {
        use super::*;
        #[derive(Serialize)]
        pub struct Doubtful { pub a: u8 }
    }
}
mod wire {
    use serde::{Deserialize, Serialize};
    #[derive(Serialize, Deserialize)]
    pub struct Sent { pub a: u16 }
    pub mod inner {
        use super::*;
        #[derive(Serialize)]
        pub struct Too { pub a: Sent }
    }
}
