mod drivers {
    pub mod bme280 { pub type Measurement = u16; }
    pub mod task {
        use super::*;
        // message
        pub struct Report { near: bme280::Measurement }
    }
}
mod app {
    use super::drivers::task::*;
    // message
    pub struct Far { m: bme280::Measurement }
}
