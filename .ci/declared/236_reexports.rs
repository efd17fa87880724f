pub mod prelude { pub use super::deep::*; pub use super::deep::inner::Inner as Core; }
pub mod deep {
    pub mod inner {
        #[derive(serde::Serialize, serde::Deserialize)]
        pub struct Inner { pub a: u16 }
    }
    #[derive(serde::Serialize, serde::Deserialize)]
    pub enum Mode { On, Off(u8) }
    pub const WIDTH: usize = 2;
}
pub mod user {
    use crate::prelude::*;
    #[derive(serde::Serialize, serde::Deserialize)]
    pub struct Used { pub core: Core, pub mode: Mode, pub wide: [u8; WIDTH] }
}
