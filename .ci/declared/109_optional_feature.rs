#[cfg_attr(feature = "serde", derive(serde::Serialize, serde::Deserialize))]
#[cfg_attr(feature = "defmt", derive(defmt::Format))]
#[derive(Debug, Clone)]
pub struct A {
    #[cfg_attr(feature = "serde", serde(with = "postcard::fixint::le"))]
    a: u32,
    #[cfg_attr(feature = "serde", serde(skip, default))]
    b: Instant,
}
#[cfg_attr(feature = "serde", derive(serde::Serialize, serde::Deserialize))]
pub struct B {
    #[cfg_attr(feature = "tiny", serde(with = "postcard::fixint::le"))]
    a: u32,
}
