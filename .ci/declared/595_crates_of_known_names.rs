use other_crate as serde_bytes;
#[derive(Serialize, Deserialize)]
struct A {
    #[serde(with = "serde_bytes")]
    a: Vec<u8>,
}
mod m {
    use facade::postcard;
    #[derive(Serialize, Deserialize)]
    struct B {
        #[serde(with = "postcard::fixint::le")]
        b: u32,
    }
    #[derive(Serialize, Deserialize)]
    struct C {
        #[serde(with = "::postcard::fixint::le")]
        b: u32,
    }
}
