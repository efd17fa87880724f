#[derive(Serialize, Deserialize)]
#[doc = "a ] b [ c"]
#[deprecated(since = "1.0", note = "take [`B`] // or C")]
struct A {
    #[doc = r#"a "quoted" ] // part"#]
    a: u8,
    #[serde(rename = "]")]
    b: u16,
}
