use serde::{Deserialize, Serialize};
#[derive(Serialize, Deserialize)]
pub(crate) struct A(pub(crate) (u8, u16), pub (u8), pub(in crate::deep) i8, (u8, u8,),);
#[derive(Serialize, Deserialize)]
pub(super) struct B { pub(super) r#in: (bool) }
