include!(concat!(env!("OUT_DIR"), "/generated.rs"));
mod sim {
    pub mod types { pub type Level = u32; }
}
mod app {
    use crate::types::Level;
    #[derive(Serialize, Deserialize)]
    struct A(Level);
    #[derive(Serialize, Deserialize)]
    struct B(crate::types::Level);
}
