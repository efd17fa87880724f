use bme280;
mod drivers { pub mod bme280 { pub type Level = u8; } }
mod app {
    use super::bme280;
    // message
    pub struct A { l: bme280::Level }
}
