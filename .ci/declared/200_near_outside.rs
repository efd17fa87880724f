const N: usize = 2;

// message
struct Point {
    x: u16,
}

mod near {
    use super::{N, Point};

    // message
    struct A {
        n: [u8; N],
        at: Point,
    }

    mod nearer {
        use super::super::Point;

        // message
        struct B {
            at: Point,
        }
    }
}
