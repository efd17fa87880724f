// An inner `cfg_attr` may leave the module out, and the first word is then a crate.
mod icd {
    //! What is on the wire.
    #![allow(dead_code)]
    #![cfg_attr(all(), cfg(feature = "icd"))]
    // message
    pub struct Level(pub [u8; 1]);
}
// message
struct Sent(icd::Level);
// message
struct Ours(self::icd::Level);
