use serde::{Deserialize, Serialize};
const BASE: isize = 4;
#[derive(Serialize, Deserialize)]
#[repr(i16)]
pub enum E {
    #[doc = "first, = 3"]
    A = BASE << 1,
    #[deprecated(note = "use `A`, not {this}")]
    B = { let x = [1, 2, 3]; x[1] },
    C = -1,
    D { x: u8 } = if BASE > 3 { 7 } else { 8 },
    E(u16) = (BASE + 1, 2).0,
}
