use core::cell::{Cell, RefCell};
use core::cmp::Reverse;
use core::num::{Saturating, Wrapping};
use serde::{Deserialize, Serialize};
use std::collections::{BinaryHeap, LinkedList, VecDeque};
use std::rc::Rc;
use std::sync::{Arc, Mutex, RwLock};

#[derive(Serialize, Deserialize)]
pub struct Counters {
    pub sequence: Wrapping<u32>,
    pub errors: Saturating<i16>,
    pub shared: Rc<RefCell<Cell<u8>>>,
    pub locked: Arc<Mutex<Option<RwLock<u16>>>>,
    pub order: BinaryHeap<Reverse<u16>>,
    pub ring: VecDeque<Wrapping<u8>>,
    pub chain: LinkedList<Box<bool>>,
}
