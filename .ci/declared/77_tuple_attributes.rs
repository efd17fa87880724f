#[derive(Serialize, Deserialize)]
pub struct P(
    #[serde(with = "postcard::fixint::be")] pub u16,
    pub(crate) u8,
    /// the rest
    #[serde(default)] pub(in crate::a) Option<i8>,
);
