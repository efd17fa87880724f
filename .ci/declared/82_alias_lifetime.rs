type Name<'a> = &'a str;
type One = Two;
type Two = Vec<Three>;
type Three = u16;
#[derive(Serialize, Deserialize)]
struct A { a: One }
#[derive(Serialize, Deserialize)]
struct B<'a> { b: Name<'a> }
