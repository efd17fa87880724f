pub const A: usize = B;
pub const B: usize = A;
pub const C: usize = D * D;
pub const D: usize = E * E;
pub const E: usize = F * F;
pub const F: usize = 2 * 2 - 5;
#[derive(serde::Serialize)]
pub struct X { pub a: [u8; A], pub b: [u8; C], pub c: [u8; 7 / 0], pub d: [u8; (300 as u8) as usize] }
