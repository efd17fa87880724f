pub const N: usize = 2;
pub mod v1 {
    pub const N: usize = 9;
    #[derive(Serialize, Deserialize)]
    pub struct A { pub n: [u8; N] }
}
