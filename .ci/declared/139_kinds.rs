#[derive(serde::Serialize, serde::Deserialize)]
struct Nums { a: usize, b: isize, c: char, d: i128, e: u128, f: f32, g: f64, h: Option<Option<u8>>, i: Result<u8, ()>, j: [[i8; 2]; 3], k: (bool, char), l: [(); 3], m: std::num::Wrapping<i64>, n: core::cell::Cell<u8> }
