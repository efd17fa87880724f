#![doc = include_str!("../README.md")]
#![doc(html_root_url = "https://example.org/icd")]
//! ```rust,no_run
//! // message
//! struct NotThis { a: u8 }
//! ```

use serde::{Deserialize, Serialize};

#[doc = "```
#[derive(Serialize)] struct Nor { this: u64 }
```"]
#[doc(alias = "keepalive")]
#[derive(Serialize, Deserialize)]
pub struct Beat {
    #[doc = r#"counts "beats", see #[derive(Serialize)]"#]
    pub count: u32,
    /** In °C; `Option<f32>` on /* some */ boards. */
    pub celsius: i8,
    /* kept for old loaders */
    #[doc(hidden)]
    pub reserved: [u8; 2],
}
