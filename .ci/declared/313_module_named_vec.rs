mod Vec {}
// message
struct A(Vec<u8>);
