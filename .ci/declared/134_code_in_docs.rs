//! # Protocol
//! ```
//! // message
//! struct InDocs { a: u8 }
//! ```
/** Block docs
```rust
#[derive(Serialize)]
struct Inside { x: u8 }
```
*/
#[doc = include_str!("../README.md")]
#[doc(alias = "}")]
/// ```no_run
/// #[derive(Serialize, Deserialize)]
/// struct Another { b: u16 }
/// ```
#[derive(serde::Serialize, serde::Deserialize)]
pub struct Real {
    /// e.g. `{"x": 1}` or "unbalanced ( [ {
    pub x: u8, // trailing, with , and }
    /* before */ pub y /* between */ : /* here too */ u16,
}
