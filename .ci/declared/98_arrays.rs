#[derive(Serialize, Deserialize)]
struct T { a: [[u8; 2]; 3], b: ((), (u8,), (bool, [u16; 1])), c: [(); 4] }
