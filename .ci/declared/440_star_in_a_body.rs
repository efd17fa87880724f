type Level = u8;
fn f() { use wide::*;
    #[derive(serde::Serialize)]
    struct L(Level); }
mod wide { pub type Level = u16; }
