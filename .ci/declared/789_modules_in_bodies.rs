// `super` in a module of a body is the module round the body, as is `self` in the body.
// message
struct A([u8; 1]);
fn body() {
    // message
    struct A([u8; 2]);
    mod m {
        // message
        struct OfFile(super::A);
        // message
        pub struct A(pub [u8; 3]);
        pub mod k {
            // message
            struct OfModule(super::A);
            // message
            struct OfFileToo(super::super::A);
            use super::super::*;
            // message
            struct ByStar(A);
        }
    }
    // message
    struct OfSelf(self::A);
    // message
    struct OfBody(A);
    // message
    struct ByPath(self::m::A);
}
mod m {
    // message
    pub struct A(pub [u8; 4]);
}
const _: () = {
    mod n {
        // message
        pub struct A(pub [u8; 5]);
        // message
        struct OfItself(A, super::A);
    }
    // message
    struct InConstant(A);
};
fn methods() {
    // message
    struct A([u8; 6]);
    impl A {
        fn method(&self) {
            // message
            struct InMethod(A);
        }
    }
    trait Resets {
        fn reset() {
            type A = [u8; 7];
            // message
            struct InDefault(A);
        }
    }
}
