pub struct Other;
impl Other { pub const M: usize = 3; }
#[derive(Serialize, Deserialize)]
pub struct A { pub n: [u8; M], pub o: [u8; Other::M] }
