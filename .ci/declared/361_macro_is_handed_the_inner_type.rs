macro_rules! newtype {
    ($of:ty, $name:ident) => { pub struct $name(pub $of); };
}
newtype!(u8, Meters);
newtype!(u16, Feet);
// message
struct A { a: u8, b: u16 }
