#[derive(Serialize, Deserialize)]
struct Buffer<T, const N: usize = 4> { a: [T; N] }
#[derive(Serialize, Deserialize)]
struct A { a: Buffer<u8>, b: <u8 as Kind>::Data, c: IpAddr }
#[derive(Serialize, Deserialize)]
struct B { a: <u8 as Kind>::Data }
#[derive(Serialize, Deserialize)]
struct C { a: IpAddr }
