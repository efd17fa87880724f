//! A side by hand, of a type that two aliases and a `use` call otherwise, in no order.
use serde::{Deserialize, Serialize};

pub type Shown = Named;
pub type Named = Own;
use Level as Own;

#[derive(Deserialize)]
pub struct Level(pub u16);

impl Serialize for Shown {}

#[derive(Deserialize)]
pub struct Gain(pub u16);

impl_serialize!(Gain);

#[derive(Deserialize)]
pub struct Order(pub u16);
