pub type Id = u16;
pub const N: usize = 2;
pub struct Other;
trait Has { type Id; const N: usize; }
impl Has for Other { type Id = u64; const N: usize = 9; }
impl Other { pub const N: usize = 7; pub const M: usize = 3; }
fn local() { const N: usize = 11; type Id = u128; let _ = N; }
#[derive(Serialize, Deserialize)]
pub struct A { pub id: Id, pub n: [u8; N] }
