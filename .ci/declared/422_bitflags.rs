bitflags! {
    pub struct Flags: u8 { const A = 1; }
}
// message
struct A(Flags);
