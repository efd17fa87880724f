use alloc::borrow::Cow;
#[derive(Serialize, Deserialize)]
struct T<'a> { a: Cow<'a, str>, b: Cow<'static, [u8]>, c: &'static str }
