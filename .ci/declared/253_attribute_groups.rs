use serde::{Deserialize, Serialize};
#[derive(Serialize, Deserialize, clap::Parser, Builder)]
#[builder(setter(into, strip_option), build_fn(validate = "Self::check"))]
#[command(version, about = "x { y", long_about = None)]
pub struct A {
    #[builder(default = "{ let x = vec![1]; x[0] }")]
    #[arg(long, value_parser = |s: &str| s.parse::<u8>())]
    pub a: u8,
    #[serde(skip_serializing_if = "Option::is_none", default)]
    pub b: Option<u8>,
}
