mod own {
    // message
    pub struct String(pub u16);
}
cfg_if::cfg_if! {
    if #[cfg(feature = "own")] {
        use crate::own::String;
    }
}
// message
struct A(String);
