mod units {
    macro_rules! unit {
        ($($name:ident: $of:ty),* $(,)?) => {
            $(#[derive(Serialize, Deserialize)]
            pub struct $name(pub $of);)*
        };
    }
    unit! { Volts: f32, Amps: f32 }
    #[derive(Serialize, Deserialize)]
    pub struct Watts(pub f64);
}
#[derive(Serialize, Deserialize)]
pub struct Power(units::Volts, units::Watts);
#[derive(Serialize, Deserialize)]
pub struct Load(units::Watts);
