#[derive(Serialize, Deserialize)]
pub struct A { pub a: bytes!(4), pub b: *const u8, pub c: !, pub d: impl Copy, pub e: <u8 as T>::X, pub f: [u8; N], pub g: dyn T + Send, pub h: extern "C" fn(u8), pub i: Box<dyn Fn(u8) -> u8>, pub j: _ }
