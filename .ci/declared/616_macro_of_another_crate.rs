mod own {
    macro_rules! unit { ($name:ident) => { pub type $name = u8; } }
    unit!(Rate);
}
mod old { pub type Level = u16; }
mod app {
    use super::old::*;
    use other_crate::unit;
    unit!(Gain);
    #[derive(Serialize, Deserialize)]
    struct A(Level);
}
