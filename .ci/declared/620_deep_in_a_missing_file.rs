mod hw;
mod board { }
mod sim {
    pub mod front { pub mod adc { pub mod codes { pub type Level = u32; } } }
}
#[derive(Serialize, Deserialize)]
struct A(hw::front::adc::codes::Level);
#[derive(Serialize, Deserialize)]
struct B(crate::board::front::adc::codes::Level);
#[derive(Serialize, Deserialize)]
struct C(crate::sim::front::adc::codes::Level);
