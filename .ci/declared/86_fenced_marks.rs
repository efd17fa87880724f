/// Use it so:
/// // message
/// ```
/// // message
/// struct A;
/// ```
//! not // message
#[derive(Serialize, Deserialize)]
struct A { a: u8 } // a message
