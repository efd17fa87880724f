//! The state of a link is a type; all its parameters are given where it is sent.
use core::marker::PhantomData;
use serde::{Deserialize, Serialize};

pub struct Up;
pub struct Down;

#[derive(Serialize, Deserialize)]
pub struct Link<S = Down, const MTU: usize = 64, T = u8> {
    state: PhantomData<*const S>,
    pub queue: heapless::Deque<T, MTU>,
}

impl<T> Link<Down, 4, T> {
    pub fn connect(self) -> Link<Up, 4, T> { Link { state: PhantomData, queue: self.queue } }
}

#[derive(Serialize, Deserialize)]
pub struct Both { pub up: Link<Up, 4, i16>, pub down: Link<Down, { 4 * 2 }, (u8, Option<bool>)> }
