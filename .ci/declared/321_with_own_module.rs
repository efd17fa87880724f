mod serde_bytes {}
#[derive(Serialize, Deserialize)]
struct A {
    #[serde(with = "serde_bytes")]
    b: Vec<u8>,
}
mod own {
    use crate::compat::postcard;
    #[derive(Serialize, Deserialize)]
    struct B {
        #[serde(with = "postcard::fixint::le")]
        b: u32,
    }
}
