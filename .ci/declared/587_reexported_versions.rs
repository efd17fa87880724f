pub mod v1 {
    #[derive(Serialize)]
    pub struct Config(pub u8);
}
pub mod v2 {
    #[derive(Serialize)]
    pub struct Config(pub u16);
}
pub use v2 as latest;
pub use v2::Config as Latest;
pub use v1::Config;
#[derive(Serialize)]
pub struct A(Config, v2::Config);
#[derive(Serialize)]
pub struct B(Latest);
#[derive(Serialize)]
pub struct C(latest::Config);
