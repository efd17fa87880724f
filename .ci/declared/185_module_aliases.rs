pub type Id = u16;
pub mod v1 {
    pub type Id = u32;
    #[derive(Serialize, Deserialize)]
    pub struct A { pub id: Id }
}
