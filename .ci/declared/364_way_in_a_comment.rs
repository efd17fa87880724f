// message
struct Sample {
    // with = "postcard::fixint::le"
    at: u32,
    /// Above or below.
    // with = "postcard::fixint::be"
    offset: i16,
    n: u16,
}
// message
enum Outcome {
    Lost(
        // with = "postcard::fixint::be"
        u64,
    ),
    Kept,
}
#[derive(Serialize, Deserialize)]
struct Plain {
    #[serde(
        // with = "postcard::fixint::le"
        default
    )]
    a: u32,
    // #[serde(with = "postcard::fixint::le")]
    b: u16,
}
