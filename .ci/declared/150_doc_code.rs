//! A crate of messages.
//!
//! ```
//! #[derive(Serialize)]
//! struct Shown { a: u64 }
//! ```
/** A block of words:
 * #[derive(Serialize, Deserialize)]
 * struct Starred { a: u64 }
 */
#[derive(Serialize, Deserialize)]
#[doc = "Text with } and { and #[derive(Serialize)]"]
pub struct Real {
    /// ```
    /// let x = Real { a: 1 }; // }
    /// ```
    pub a: u16, // the first, { not closed
    /** b, "quoted */
    pub b: /* here */ u8,
}
