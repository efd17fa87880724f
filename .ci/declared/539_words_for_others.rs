//! Attributes and derives of other crates.
use serde::{Deserialize, Serialize};

#[derive(Debug, Clone, Serialize, Deserialize, PartialEq, bon::Builder, validator::Validate, garde::Validate, schemars::JsonSchema, ts_rs::TS, clap::Args, zeroize::Zeroize, educe::Educe)]
#[builder(on(String, into))]
#[garde(allow_unvalidated)]
#[schemars(rename = "Wifi", deny_unknown_fields)]
#[ts(export, export_to = "bindings/")]
pub struct Wifi {
    #[builder(default)]
    #[validate(length(min = 1, max = 32))]
    #[garde(length(bytes, max = 32))]
    pub ssid: String,
    #[schemars(range(min = 1, max = 13))]
    #[arg(long, default_value_t = 6)]
    pub channel: u8,
    #[zeroize(skip)]
    #[educe(Debug(ignore))]
    pub key: Option<[u8; 4]>,
}
