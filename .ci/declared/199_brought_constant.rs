const N: usize = 2;

mod wide {
    use crate::config::N;

    // message
    struct A {
        n: [u8; N],
    }
}
