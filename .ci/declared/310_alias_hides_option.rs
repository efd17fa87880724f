type Option<T> = core::option::Option<T>;
// message
struct A(Option<u8>);
