mod v1 { pub type Config = u8; }
use v1::Config as Old;
// message
struct A(Old);
