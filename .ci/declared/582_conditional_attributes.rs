#[cfg_attr(feature = "serde", derive(serde::Serialize, serde::Deserialize), serde(rename_all = "snake_case"))]
pub enum A {
    #[cfg_attr(feature = "serde", serde(rename = "b"))]
    B(#[cfg_attr(feature = "serde", serde(skip))] u64, u8),
    C,
}
#[cfg_attr(feature = "serde", derive(serde::Serialize))]
#[cfg_attr(feature = "serde", derive(serde::Deserialize))]
#[cfg_attr(all(feature = "defmt", not(test)), derive(defmt::Format))]
pub struct D {
    #[cfg_attr(feature = "serde", serde(default))]
    pub a: A,
    #[cfg_attr(feature = "defmt", defmt(Debug2Format))]
    pub b: u8,
}
