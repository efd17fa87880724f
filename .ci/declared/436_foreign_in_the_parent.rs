use other_crate::Level;
mod inner { use super::*;
    // message
    struct A(Level); }
mod more { pub type Level = u8; }
