fn all<'a>(from: &'a [u8]) -> impl Iterator<Item = u8> + use<'a> { from.iter().copied() }
// message
struct A { a: u8, b: u16 }
