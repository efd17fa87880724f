use serde::{Deserialize, Serialize};

mod narrow {
    use serde::{Deserialize, Serialize};

    #[derive(Serialize, Deserialize)]
    pub struct Level(pub u8);
}

mod chosen {
    #[cfg(feature = "wide")]
    pub type Level = u32;
    #[cfg(not(feature = "wide"))]
    pub use crate::narrow::Level;
}

#[derive(Serialize, Deserialize)]
pub struct A(chosen::Level);
