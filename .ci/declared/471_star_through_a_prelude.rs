pub mod msgs {
    // message
    pub struct Level(pub u8);
}
pub mod prelude { pub use crate::msgs::*; pub use vendor::*; }
mod app {
    use crate::prelude::*;
    // message
    pub struct A { l: Level }
}
