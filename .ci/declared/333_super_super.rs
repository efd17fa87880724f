pub const N: usize = 2;
pub type Id = u16;
pub mod a {
    pub const N: usize = 3;
    pub mod b {
        pub type Id = u32;
        pub mod c {
            // message
            pub struct A { pub a: super::super::super::Id, pub b: super::Id, pub c: [u8; super::super::N], pub d: [u8; super::super::super::N] }
        }
    }
}
