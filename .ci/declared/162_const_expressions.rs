const ROWS: usize = 2; const COLS: usize = ROWS * 3;
#[derive(Serialize, Deserialize)]
pub struct A { pub a: [[u8; COLS]; ROWS] }
#[derive(Serialize, Deserialize)]
pub struct B { pub a: [u8; ROWS * 2], pub b: [u8; core::mem::size_of::<u32>()], pub c: [u8; ROWS + 1], pub d: [u8; { ROWS }], pub e: [u8; 4 as usize] }
