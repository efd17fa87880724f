macro_rules! narrow {
    () => { type u32 = u16; };
}
narrow!();
// message
struct A(u32);
