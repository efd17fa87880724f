#![no_std]

#[cfg_attr(feature = "std", derive(Debug, Clone, PartialEq))]
#[cfg_attr(feature = "defmt", derive(defmt::Format))]
#[cfg_attr(feature = "serde", derive(serde::Serialize, serde::Deserialize), serde(rename_all = "camelCase", deny_unknown_fields))]
#[cfg_attr(feature = "schema", derive(postcard_schema::Schema))]
#[must_use]
pub struct LinkStatus {
    #[cfg_attr(feature = "serde", serde(rename = "type", alias = "kind"))]
    pub r#type: LinkType,
    #[cfg_attr(feature = "serde", serde(default, skip))]
    pub since: Option<Instant>,
    #[cfg_attr(feature = "std", doc = "In dBm.")]
    pub rssi: i16,
}

#[cfg_attr(feature = "serde", derive(serde::Serialize, serde::Deserialize))]
#[cfg_attr(any(test, feature = "fuzz"), derive(arbitrary::Arbitrary))]
#[derive(Clone, Copy)]
pub enum LinkType {
    Wired,
    #[cfg_attr(feature = "serde", serde(rename = "802.15.4", alias = "zigbee"))]
    Ieee802154 { pan: u16 },
}

pub struct Instant(u64);
