#[derive(Serialize, Deserialize)]
#[repr(u8)]
#[non_exhaustive]
pub enum Command<'a> {
    Reset = 0x10,
    Write { #[serde(borrow)] data: &'a [u8], at: u32 } = 0x20,
    Name(#[serde(borrow)] std::borrow::Cow<'a, str>),
    Pair(u8, #[serde(skip)] u64),
    One(#[serde(with = "postcard::fixint::le")] u16),
    Empty(),
    None {},
}
#[derive(Serialize, Deserialize)]
#[serde(transparent)]
pub struct Wrapped {
    pub of: One,
    #[serde(skip)]
    pub seen: core::cell::Cell<u64>,
}
#[derive(Serialize, Deserialize)]
pub enum One {
    A(One2),
}
#[derive(Serialize, Deserialize)]
pub struct One2();
