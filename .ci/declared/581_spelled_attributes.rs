#[ derive ( Serialize , Deserialize ) ]
#[serde(
    rename = "Other",
    rename_all = "camelCase",
    deny_unknown_fields,
)]
pub struct A {
    #[ serde ( skip ) ]
    pub a: NotSent,
    #[serde(skip,)]
    pub b: NotSent,
    #[serde(default, skip_serializing, skip_deserializing)]
    pub c: NotSent,
    #[serde(skip_serializing)]
    #[serde(skip_deserializing)]
    pub d: NotSent,
    #[serde(rename(serialize = "x", deserialize = "y"), alias = "z")]
    #[doc = "#[serde(skip)]"]
    pub e: u16,
    #[serde(default = "crate::f", with = r#"postcard::fixint::be"#)]
    pub f: u32,
    #[serde(bound(serialize = "", deserialize = ""))]
    pub g: Option<u8>,
}
