mod limits { pub const N: usize = 2; pub mod deep { pub const N: usize = 3; } }
use limits::*;
const M: usize = N;
// message
struct A { a: [u8; M], b: [u8; deep::N], c: [u8; limits::deep::N] }
mod other {
    const N: usize = 5;
    // message
    struct B { a: [u8; N], b: [u8; super::M] }
}
