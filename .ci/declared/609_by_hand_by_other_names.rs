//! Sides by hand, of types that an alias, a `use` or a raw name calls otherwise.
use serde::ser::{Serialize, Serializer};
use serde::Deserialize;

#[derive(Deserialize)]
pub struct Level(pub u16);

pub type Brightness = Level;

impl Serialize for Brightness {}

#[derive(Deserialize)]
pub struct Gain(pub u16);

mod sent {
    use super::Gain as Own;
    use serde::Serialize;

    impl Serialize for Own {}
}

// declared by a raw name
#[derive(Deserialize)]
#[allow(non_camel_case_types)]
pub struct r#Unit(pub u16);

impl Serialize for r#Unit {}

#[derive(Deserialize)]
pub struct Order(pub u16);

pub type Orders = [Order; 2];
