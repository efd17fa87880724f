#[derive(Serialize)]
pub struct A {
    #[cfg(feature = "gps")]
    pub a: u8,
    #[cfg(not(feature = "gps"))]
    pub b: u16,
}
#[derive(Serialize)]
pub struct B(#[cfg_attr(all(), cfg(feature = "x"))] u8, u8);
