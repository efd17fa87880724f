pub type Id = u16;
#[derive(Serialize)]
pub struct A(pub (crate::Id), pub(crate) (Id, u8), pub (self::Id, u8), pub(in crate) u8);
