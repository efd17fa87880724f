macro_rules! units { ($name:ident) => { pub mod $name { pub type Level = u8; } } }
units!(types);
mod sim {
    pub mod types { pub type Level = u32; }
}
mod app {
    #[derive(Serialize, Deserialize)]
    struct A(crate::types::Level);
}
