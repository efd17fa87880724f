// Groups in groups, `self` in them, and names that are brought in as `_`.
mod a {
    // message
    pub struct A(pub [u8; 1]);
    pub mod b {
        // message
        pub struct B(pub [u8; 2]);
        pub const N: usize = 3;
        pub mod c {
            // message
            pub struct C(pub [u8; 4]);
        }
    }
    pub trait Resets {}
}
mod other {
    // message
    pub struct A(pub [u8; 5]);
}
mod one {
    use super::a::{b::{self as beta, c::*, N}, A};
    // message
    struct One(beta::B, C, [u8; N], A);
}
mod two {
    use {super::a::A, super::a::{b::{B}}};
    // message
    struct Two(A, B);
}
mod three {
    use {{crate::a::{{A}, {b::{{B, c::{self}}}}}}};
    // message
    struct Three(A, B, c::C);
}
mod four {
    use super::a::A as _;
    use super::a::Resets as _;
    use super::other::*;
    // message
    struct Four(A);
}
mod five {
    use crate::{self as root};
    use super::{self as up, other::{self}};
    // message
    struct Five(root::a::A, up::other::A, other::A);
}
