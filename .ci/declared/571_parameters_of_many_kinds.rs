use core::marker::PhantomData;
// Parameters that are no lengths, and types in arguments that aren't sent.
#[derive(Serialize, Deserialize)]
pub struct Frame<T, const FAST: bool, const TAG: char = 'x', const SHIFT: i8 = 0> {
    pub of: T,
    pub unit: PhantomData<[u8; 0]>,
}
#[derive(Serialize, Deserialize)]
pub struct Sensor<Unit> {
    pub raw: i16,
    pub unit: PhantomData<Unit>,
}
pub mod units {
    pub struct Celsius;
}
#[derive(Serialize, Deserialize)]
pub struct Report {
    pub a: Frame<u16, true, 'a', -1>,
    pub b: Frame<u8, { false }, '\'', { -3 }>,
    pub c: Vec::<Frame<u16, true, 'b', 5>>,
    pub d: Sensor<units::Celsius>,
    pub e: Sensor<embassy_units::Kelvin>,
    pub f: Option::<Sensor<crate::units::Celsius>>,
}
#[derive(Serialize, Deserialize)]
pub struct Few {
    pub a: Frame<u16, true, 'a', -1>,
    pub b: (Sensor<units::Celsius>, [Sensor<embassy_units::Kelvin>; 2]),
}
