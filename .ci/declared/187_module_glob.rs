pub mod v1 {
    use crate::own::*;
    #[derive(Serialize, Deserialize)]
    pub struct A { pub b: ByteBuf }
}
