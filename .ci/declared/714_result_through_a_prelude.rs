//! What may hide a name that every file has: a prelude of preludes, a file that is included, and a macro.
pub type Result<T> = core::result::Result<T, u8>;

mod first {
    pub use crate::second::*;
}

mod second {
    pub use crate::*;
}

mod by_preludes {
    use crate::first::*;

    // message
    pub struct A(Result<u8, u8>);
}

mod included {
    include!("generated.rs");
}

mod by_a_file {
    use crate::included::*;

    // message
    pub struct B(Result<u8, u8>);
}

mod by_a_macro {
    use crate::ids::*;

    maker::results!(Result);

    // message
    pub struct C(Result<u8, u8>);
}

mod ids {}
