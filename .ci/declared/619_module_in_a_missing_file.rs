mod hw;
mod board;
pub use board::*;
mod sim {
    pub mod adc { pub type Level = u32; }
    pub mod dac { pub type Level = u32; }
}
mod app {
    use crate::hw::adc::Level;
    #[derive(Serialize, Deserialize)]
    struct A(crate::hw::adc::Level);
    #[derive(Serialize, Deserialize)]
    struct B(Level);
    #[derive(Serialize, Deserialize)]
    struct C(super::dac::Level);
}
