//! Frames are declared in private modules, and used by the names that the crate passes on.
mod frames {
    mod inner {
        use serde::{Deserialize, Serialize};

        #[derive(Serialize, Deserialize)]
        pub struct Frame { pub kind: super::Kind, pub seq: u16 }
    }

    use serde::{Deserialize, Serialize};

    #[derive(Clone, Copy, Serialize, Deserialize)]
    pub enum Kind { Data, Ack(u8) }

    pub(crate) use self::inner::Frame;
}

pub use crate::frames::Kind;
pub(crate) use frames::Frame;

pub(in crate) mod queue {
    use super::{frames, Kind};
    use serde::{Deserialize, Serialize};

    #[derive(Serialize, Deserialize)]
    pub struct Pending { pub last: Option<Kind>, pub frames: heapless::Vec<frames::Frame, 2> }
}
