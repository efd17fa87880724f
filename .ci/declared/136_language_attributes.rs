#[non_exhaustive]
#[must_use = "send it }"]
#[allow(dead_code, clippy::large_enum_variant)]
#[derive(serde::Serialize, serde::Deserialize)]
#[derive(Debug)]
#[repr(C, align(4))]
#[deprecated(since = "1.0", note = "use [`X`] instead, )")]
pub enum Big { #[default] A, #[doc(hidden)] B(#[allow(unused)] u8), #[deprecated] #[inline] C { #[must_use] x: u8 } }
