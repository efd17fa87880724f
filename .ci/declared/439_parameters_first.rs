type T = u32;
const N: usize = 9;
// message
struct G<T, const N: usize>(T, [u8; N], [u8; (N + 1) * 1]);
// message
struct Use(G<u8, 1>);
