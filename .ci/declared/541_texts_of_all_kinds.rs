use std::borrow::Cow;
use std::rc::Rc;
use std::sync::Arc;
use serde::{Deserialize, Serialize};

#[derive(Serialize, Deserialize)]
pub struct Texts<'a> {
    pub a: Box<str>,
    pub b: Rc<str>,
    pub c: Arc<[u16]>,
    pub d: Box<[Box<str>]>,
    pub e: Cow<'a, [Cow<'a, str>]>,
    pub f: char,
    pub g: [char; 2],
    pub h: arrayvec::ArrayString<4>,
    pub i: arrayvec::ArrayVec<heapless::String<2>, 2>,
}
