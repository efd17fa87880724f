// A constant and a type of one name are two things, and so is what a trait or a type has by this name.
mod numbers {
    pub const N: usize = 1;
    pub const M: usize = 2;
}
mod kinds {
    // message
    pub struct N { raw: [u8; 4] }
    // message
    pub struct K(pub [u8; 5]);
}
mod stars {
    use super::kinds::*;
    use super::numbers::*;
    // message
    struct Both([u8; N], N);
}
mod named {
    use super::kinds::*;
    use super::numbers::N;
    // message
    struct Length([u8; N], K);
}
mod modules {
    #[allow(non_snake_case)]
    pub mod M {
        // message
        pub struct Inside(pub [u8; 6]);
    }
    pub const M: usize = 7;
}
mod grouped {
    use super::modules::M::{self};
    use super::numbers::*;
    // message
    struct Group([u8; M], M::Inside);
}
struct S;
impl S {
    const LEN: usize = 9;
    fn method() {
        // message
        struct InMethod([u8; LEN]);
    }
}
const LEN: usize = 3;
trait Sized2 {
    const LEN: usize = 8;
    type Kind;
    fn provided() {
        // message
        struct InTrait([u8; LEN], Kind);
    }
}
impl Sized2 for S {
    const LEN: usize = 7;
    type Kind = u16;
    fn provided() {
        // message
        struct InImpl([u8; LEN], Kind);
    }
}
// message
struct Kind([u8; 2]);
