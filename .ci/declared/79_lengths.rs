const LEN: usize = 0x4;
const SAME: usize = LEN;
#[derive(Serialize, Deserialize)]
struct Buf<const N: usize> { d: [u8; N] }
#[derive(Serialize, Deserialize)]
struct Use { a: Buf<1>, b: Buf<{ LEN }>, c: Buf<SAME>, d: [Buf<2>; 1_0] }
