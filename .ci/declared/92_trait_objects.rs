#[derive(Serialize, Deserialize)]
struct T { a: Box<dyn Fn(u8) -> u8>, b: fn(u8) -> u8 }
