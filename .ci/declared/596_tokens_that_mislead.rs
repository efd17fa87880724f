#[derive(Serialize)]
struct A<const C: char>(u8, [u8; 2]);
#[derive(Serialize)]
struct B(A<'>'>, A<'\''>, A<','>, A<'<'>, A<'\u{2c}'>);
const LESS: bool = 1 < 2;
const SHIFT: usize = 1 << 2 >> 1;
type F = fn(u8) -> u8;
#[derive(Serialize)]
struct C { a: core::marker::PhantomData<fn(F) -> Vec<u8>>, b: [u8; SHIFT], c: core::marker::PhantomData<A<'>'>> }
