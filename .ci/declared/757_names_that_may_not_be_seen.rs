// Of the two things of a name one isn't visible: a `use` brings in the other alone, and a `*` what it hid.
mod private {
    const N: usize = 3;
    pub type N = u8;
    pub const ID: u8 = 1;
    type ID = u16;
    // message
    struct Own([u8; N], ID);
}
mod lengths {
    pub const N: usize = 4;
}
mod types {
    pub type ID = u32;
}

mod user {
    use super::lengths::*;
    use super::private::{ID, N};
    use super::types::*;
    // message
    struct Frame {
        all: [u8; N],
        id: ID,
    }
}
