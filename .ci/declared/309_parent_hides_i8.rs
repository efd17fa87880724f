type i8 = u64;
mod inner {
    use super::*;
    // message
    pub struct A { a: i8 }
    mod blind {
        // message
        pub struct B { a: i8 }
    }
}
