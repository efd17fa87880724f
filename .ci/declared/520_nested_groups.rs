//! Imports in groups within groups.
pub mod consts { pub const CHANNELS: usize = 2; pub const DEPTH: usize = 3; }

pub mod proto {
    pub mod v2 {
        use serde::{Deserialize, Serialize};
        #[derive(Serialize, Deserialize)]
        pub struct Frame { pub of: u8 }
        #[derive(Serialize, Deserialize)]
        pub enum Kind { Slow, Fast(u16) }
    }
    pub type Stamp = u64;
}

mod app {
    use core::{fmt::{self, Debug}, marker::PhantomData};
    use serde::{self, Deserialize, Serialize};
    use crate::{consts::{CHANNELS, DEPTH}, proto::{self, v2::{Frame, Kind, }, }};

    #[derive(Serialize, Deserialize)]
    pub struct Batch {
        pub frames: [[Frame; CHANNELS]; DEPTH],
        pub kind: Kind,
        pub at: proto::Stamp,
        pub next: Option<proto::v2::Kind>,
        pub mark: PhantomData<fmt::Error>,
    }
}
