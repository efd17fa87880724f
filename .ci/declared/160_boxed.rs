use std::rc::Rc; use std::sync::Arc;
#[derive(Serialize, Deserialize)]
pub struct A { pub a: Box<[u16]>, pub b: Box<str>, pub c: Arc<[u8]>, pub d: Rc<str>, pub e: Arc<Vec<u8>> }
