macro_rules! alias {
    ($name:ident, $of:ty) => { type $name = $of; };
}
alias!(u8, u16);
// message
struct A(u8);
