use serde::{Deserialize, Serialize};
use std::borrow::Cow;
#[derive(Serialize, Deserialize)]
pub struct Lent<'a> {
    #[serde(borrow)]
    pub name: Option<&'a str>,
    #[serde(borrow = "'a")]
    pub text: Cow<'a, str>,
    #[serde(borrow)]
    pub list: Cow<'a, [u16]>,
    pub bytes: &'a [u8],
    pub boxed: Box<[u8]>,
    pub boxed_list: Box<[u16]>,
    pub shared: std::rc::Rc<str>,
    pub both: std::sync::Arc<[Option<u8>]>,
    pub bytes_cow: Cow<'a, [u8]>,
}
#[derive(Serialize)]
pub struct Static { pub names: &'static [&'static str], pub table: &'static [[u8; 2]; 2] }
