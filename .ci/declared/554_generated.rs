//! What `build.rs` writes isn't read.
use serde::{Deserialize, Serialize};

pub mod generated {
    include!(concat!(env!("OUT_DIR"), "/ids.rs"));
}

use generated::{NodeId, LINKS};

#[derive(Serialize, Deserialize)]
pub struct Hello { pub node: NodeId }

#[derive(Serialize, Deserialize)]
pub struct Links { pub links: [u8; LINKS] }

#[derive(Serialize, Deserialize)]
pub struct Kinds { pub kind: generated::Kind }

mod elsewhere {
    pub type NodeId = u8;
    pub const LINKS: usize = 3;
    pub type Kind = u8;
}
