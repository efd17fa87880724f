pub mod types { pub type Level = u16; }
pub mod prelude {
    pub use super::types::*;
    slint::include_modules!();
}
mod app {
    use super::prelude::*;
    #[derive(Serialize, Deserialize)]
    struct A(Level);
}
mod ui {
    use super::types::*;
    slint::include_modules!();
    #[derive(Serialize, Deserialize)]
    struct B(Level);
}
mod other {
    #[derive(Serialize, Deserialize)]
    struct C(crate::prelude::Level);
}
