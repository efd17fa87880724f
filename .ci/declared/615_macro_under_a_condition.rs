macro_rules! units { ($($name:ident of $size:expr),*) => { $(pub type $name = [u8; $size];)* } }
#[cfg(not(feature = "wide"))]
units!(Rate of 2, Level of 3);
#[cfg(feature = "wide")]
pub type Level = [u8; 5];
#[derive(Serialize, Deserialize)]
struct A(Level);
