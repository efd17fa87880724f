macro_rules! rows {
    ($($name:ident = $value:expr;)*) => { $(pub const $name: usize = $value;)* };
}
rows! { ROWS = 3; COLUMNS = 4; }
macro_rules! helper {
    ($name:ident) => { fn $name() -> u8 { struct Inside(u8); Inside(1).0 } };
}
helper!(one);
// message
struct A { a: u8, b: u16 }
