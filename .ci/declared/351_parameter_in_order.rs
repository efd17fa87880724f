// message
struct P<T> { a: LE<T>, b: T }
// message
struct A(P<u16>);
