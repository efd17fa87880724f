// A `use` brings in the function, the constant or the macro of a name. The type of that name isn't visible there, and a `*` has another.
mod codec {
    mod encode {
        pub fn encode() {}
        pub type Level = u8;
    }
    pub use self::encode::encode;
}
mod drivers {
    pub mod encode {
        pub type Level = u16;
    }
    pub type Id = u16;
    pub type Count = u16;
    pub type Gain = u16;
    pub type Span = u16;
    pub type Step = u16;
}

mod sender {
    use super::codec::encode;
    use super::drivers::*;
    // message
    struct Sent(encode::Level);
}

mod lengths {
    pub const Id: usize = 3;
}
mod types {
    pub type Id = u8;
    pub type Count = u8;
}
mod both {
    pub use super::lengths::Id;
    use super::types::Id;
    pub const Count: usize = 3;
    use super::types::*;
}

mod of_imports {
    use super::both::{Count, Id};
    use super::drivers::*;
    // message
    struct Named(Id, [u8; 2]);
    // message
    struct Starred(Count);
}

mod deep {
    pub mod inner {
        pub(super) type Gain = u8;
        pub fn Gain() {}
        pub(in crate::deep) type Span = u8;
        pub fn Span() {}
        pub(self) type Step = u8;
        pub enum Steps {
            Step,
        }
        pub use Steps::*;
    }
}

mod of_limits {
    use super::deep::inner::{Gain, Span, Step};
    use super::drivers::*;
    // message
    struct OfParent(Gain);
    // message
    struct OfPath(Span);
    // message
    struct OfItself(Step);
}

fn in_a_body() {
    use of_language::{String, u8};
    // message
    struct Text(String, [u16; 2]);
    // message
    struct Byte(u8);
}
mod of_language {
    type u8 = u16;
    pub fn u8() {}
    type String = u16;
    pub fn String() {}
}

mod facade {
    pub use super::kept::Span;
}
mod kept {
    type Span = u8;
    pub fn Span() {}
    mod within {
        use crate::drivers::*;
        use crate::facade::Span;
        // message
        struct Within(Span);
    }
}

mod bindings {
    extern "C" {
        pub fn Gain();
        pub static Step: u8;
    }
    type Gain = u8;
    type Step = u8;
}
mod of_bindings {
    use super::bindings::{Gain, Step};
    use super::drivers::*;
    // message
    struct Bound(Gain);
    // message
    struct Stepped(Step);
}
