#[cfg_attr(feature = "serde", derive(serde::Serialize, serde::Deserialize))]
pub struct Sample {
    pub at: u32,
    #[cfg_attr(feature = "serde", cfg_attr(feature = "small", serde(skip)))]
    pub raw: u16,
    #[cfg_attr(all(feature = "serde", feature = "small"), serde(skip))]
    pub more: u16,
}

#[cfg_attr(feature = "serde", derive(serde::Serialize, serde::Deserialize))]
pub enum Source {
    Adc,
    #[cfg_attr(feature = "serde", cfg(feature = "dac"))]
    Dac,
}
