const A: usize = 0x_1F;
const B: u8 = b'a' - b'A';
const C: usize = 2_000usize / 3 % 7;
const D: usize = (A + 1) * 2 - 1 << 1;
const E: usize = { const F: usize = 4; F } as usize;
const G: usize = u16::BITS as usize / u8::BITS as usize;
#[derive(Serialize)]
struct X([u8; A], [u8; C], [u8; D], [u8; G]);
#[derive(Serialize)]
struct Y([u8; B as usize]);
#[derive(Serialize)]
struct Z([u8; E]);
