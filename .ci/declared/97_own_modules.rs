pub mod v1 { #[derive(Serialize, Deserialize)] pub struct X(pub u8); }
pub mod v2 {
    #[derive(Serialize, Deserialize)]
    pub struct Y { pub x: super::v1::X, pub z: crate::v1::X }
}
