use core::fmt::Result;
// message
struct A(Result);
