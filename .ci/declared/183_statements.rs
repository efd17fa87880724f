use serde::{Serialize, Deserialize};;
pub struct Unmarked { pub a: Missing };
static mut X: Option<fn(u8) -> Result<u8, ()>> = None;
pub trait T<'a>: Send + 'static where Self: Sized { fn f<const N: usize>(&'a self, _: [u8; N]) -> [u8; N]; type A: Into<u8>; }
impl<'a, const N: usize> T<'a> for [u8; N] where [u8; N]: Sized { fn f<const M: usize>(&'a self, x: [u8; M]) -> [u8; M] { if x.len() < N && N > 3 { x } else { x } } type A = u8; }
pub unsafe fn g() -> impl Iterator<Item = u8> + '_ { (0..3u8).map(|x| -> u8 { x << 1 }) }
const fn h<const A: usize>() -> usize { A >> 1 }
extern "C" { static Y: u8; fn z(x: *const u8, ...) -> u8; }
pub use self::inner::*; mod inner { pub const Q: u8 = 1; }
#[derive(Serialize, Deserialize)]
pub struct A { pub a: u8 }
#[global_allocator] static G: u8 = 0;
#[derive(Serialize, Deserialize)] pub enum Never {}
#[derive(Serialize, Deserialize)]
pub struct B(pub A, pub <u8 as T<'static>>::A);
