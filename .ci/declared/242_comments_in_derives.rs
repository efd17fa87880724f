use serde::{Deserialize, Serialize};
#[derive(/* not this */ Debug, // nor this: Deserialize
    Serialize /* #[serde(skip)] */, Deserialize)]
#[doc = r#"a "quoted" ] bracket"#]
/// struct Not { a: u8 }
#[cfg_attr(all(feature = "defmt", not(test)), derive(defmt::Format))]
#[allow(clippy::large_enum_variant, reason = "}")]
pub enum E { /* first */ A /* none */, B(/* one */ u16 /* byte */), /** doc { */ C { /* x: u8, */ y: u8 } }
