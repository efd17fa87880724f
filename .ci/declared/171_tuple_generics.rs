#[derive(Serialize, Deserialize)]
pub struct P<A, B: Copy = u8>(pub A, pub(crate) B);
#[derive(Serialize, Deserialize)]
pub enum E<T> where T: Clone { One(T), Two { x: P<T, u16> }, Three(Vec<P<T, T>>) }
#[derive(Serialize, Deserialize)]
pub struct U { pub e: E<i8>, pub f: E<String> }
