// Each block has its own items, wherever it stands in an expression or a type.
// message
struct A([u8; 1]);
fn closures() {
    let _one = |x: u8| {
        // message
        struct A([u8; 2]);
        // message
        struct InClosure(A);
        x
    };
    // message
    struct Beside(A);
    let _two = |_: u8| -> u8 {
        {
            // message
            struct InBlock(A);
        }
        3
    };
}
fn arms(x: u8) {
    match x {
        0 => {
            // message
            struct A([u8; 3]);
            // message
            struct InArm(A);
        }
        1 if {
            // message
            struct A([u8; 4]);
            true
        } => {
            // message
            struct BehindGuard(A);
        }
        _ => {}
    }
    if let 3 = x {
        type A = [u8; 5];
        // message
        struct InIf(A);
    } else {
        // message
        struct InElse(A);
    }
    let _later = async {
        // message
        struct A([u8; 6]);
        // message
        struct InAsync(A);
    };
    let _array = const {
        // message
        struct InConst(A);
        type A = [u8; 7];
        3
    };
}
static SOME: u8 = {
    type A = [u8; 8];
    // message
    struct InStatic(A);
    3
};
const LIST: [u8; { type A = u16; 2 }] = [0; {
    type A = [u8; 9];
    // message
    struct InLength(A);
    2
}];
fn headed<const N: usize>(_: [u8; { type A = u16; 3 }]) -> [u8; { type A = u32; 2 }] where [u8; { 3 }]: Sized {
    // message
    struct InBody(A);
    [0; 2]
}
struct Width<const N: usize>;
trait Wide<const N: usize> {}
impl Width<{ type A = u16; 1 << 1 }> {
    fn body() {
        // message
        struct InMethod(A);
    }
}
impl Wide<{ 4 >> 1 }> for [u8; 1 << 2] {}
#[repr(u8)]
enum Numbered { First = { type A = u16; 3 }, Second(A) = 7 }
fn before_use() {
    // message
    struct BeforeUse(A);
    {
        // message
        struct WithUse(A);
        use units::A;
    }
    // message
    struct BehindUse(A);
}
mod units {
    // message
    pub struct A(pub [u8; 10]);
}
