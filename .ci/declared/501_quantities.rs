//! Setpoints of a drive, whose units are types.
use core::marker::PhantomData;
use serde::{Deserialize, Serialize};

pub enum Radian {}
pub enum NewtonMetre {}

pub trait Unit {
    const SYMBOL: &'static str;
}

impl Unit for Radian {
    const SYMBOL: &'static str = "rad";
}

#[derive(Serialize, Deserialize)]
#[serde(transparent, bound(serialize = "V: Serialize", deserialize = "V: Deserialize<'de>"))]
pub struct Quantity<U, V> {
    #[serde(skip)]
    unit: PhantomData<fn() -> U>,
    value: V,
}

pub type Angle = Quantity<Radian, f32>;
pub type Torque = Quantity<NewtonMetre, i16>;

#[derive(Serialize, Deserialize)]
pub struct Setpoint<T, const AXES: usize> {
    pub axes: [T; AXES],
    pub valid_ms: u16,
}

#[derive(Serialize, Deserialize)]
pub enum Drive {
    Hold,
    Position(Setpoint<Angle, 2>),
    Torque(Setpoint<Torque, 3>),
    Trace { points: [Setpoint<(Angle, Torque), 1>; 2] },
}
