#[derive(serde::Serialize, serde::Deserialize, schemars::JsonSchema)]
#[cfg_attr(feature = "fuzz", derive(arbitrary::Arbitrary))]
#[schemars(rename = "Conf", deny_unknown_fields)]
pub struct Config {
    #[schemars(range(min = 1, max = 10))]
    #[arbitrary(value = 1)]
    pub gain: u8,
    #[schemars(with = "String")]
    #[cfg_attr(feature = "fuzz", arbitrary(default))]
    pub name: String,
    #[validate(length(min = 1))]
    #[garde(skip)]
    pub tags: Vec<String>,
}
