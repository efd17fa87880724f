#[derive(Serialize, Deserialize)]
struct D<T = u8, const N: usize = { 2 }> { t: [T; N] }
#[derive(Serialize, Deserialize)]
struct U { d: D<u16, 3> }
