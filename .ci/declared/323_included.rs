include!("types.rs");
// message
struct A(Level);
