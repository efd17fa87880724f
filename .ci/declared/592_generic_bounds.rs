#[derive(Serialize, Deserialize)]
#[serde(bound = "T: Unit")]
pub struct Quantity<'a, T: Unit<Of = u32> + ?Sized + 'a, F: Fn(&T) -> bool = fn(&T) -> bool>
where
    for<'b> &'b T: Into<u32>,
    [u8; { 1 > 0 } as usize]: Sized,
{
    pub value: u16,
    pub unit: core::marker::PhantomData<(&'a T, F)>,
}
#[derive(Serialize, Deserialize)]
pub struct A<'a>(Quantity<'a, Meters, fn(&Meters) -> bool>);
pub struct Meters;
