impl Foo { const N: usize = 3; }
#[derive(Serialize, Deserialize)]
struct T { a: [u8; Foo::N], b: [u8; N], c: heapless::Vec<u8, U16>, d: [u8; 2 * 3] }
