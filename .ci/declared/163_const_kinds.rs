pub const E: usize = 0b11; const F: usize = 0o17; const G: usize = 1_0; const H: usize = E as usize; const I: u8 = 4;
#[derive(Serialize, Deserialize)]
pub struct T { pub c: [u8; E], pub d: [u8; F], pub e: [u8; G], pub h: [u8; H], pub i: [u8; I as usize], pub j: [u8; 2 as usize], pub k: heapless::Vec<u8, { E }> }
