use hal::*;
mod sim {
    pub mod types { pub type Level = u32; }
}
mod app {
    use super::types::Level;
    #[derive(Serialize, Deserialize)]
    struct A(crate::types::Level);
    #[derive(Serialize, Deserialize)]
    struct B(super::types::Level);
    #[derive(Serialize, Deserialize)]
    struct C(Level);
}
