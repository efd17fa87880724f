#[cfg_attr(feature = "serde", derive(serde::Serialize, serde::Deserialize), serde(rename_all = "camelCase", default))]
#[cfg_attr(feature = "defmt", derive(defmt::Format), defmt(bound = ""))]
#[cfg_attr(test, derive(PartialEq))]
#[derive(Clone, Debug)]
pub struct A {
    #[cfg_attr(feature = "serde", serde(default), serde(alias = "x"))] pub a: u16,
    #[cfg_attr(feature = "defmt", defmt(Debug2Format))] pub b: u8,
    #[cfg_attr(all(feature = "serde", feature = "std"), serde(skip))] pub c: u8,
}
