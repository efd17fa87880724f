// message
struct A {
    // #[serde(with = "postcard::fixint::le")]
    a: u32,
}
// message
struct B {
    b: u32, // with = "postcard::fixint::le"
}
#[derive(Serialize, Deserialize)]
struct C {
    // with = "postcard::fixint::le"
    c: u32,
}
// message
struct E {
    // with= "postcard::fixint::le"
    e: u32,
}
// message
struct F {
    // with = "my::codec"
    f: u32,
}
