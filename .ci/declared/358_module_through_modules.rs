mod a { pub mod units { /* */ pub type Meters = u16; } }
use a::units;
use units as lengths;
// message
struct A { m: units::Meters, n: lengths::Meters }
mod inner {
    use super::*;
    // message
    struct B { m: units::Meters }
}
