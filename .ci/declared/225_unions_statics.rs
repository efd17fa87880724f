use serde::{Deserialize, Serialize};
#[repr(C)]
pub union Raw { a: u8, b: u16 }
pub static NAME: &str = "struct X { a: u8 }";
pub static mut COUNT: u32 = 0;
extern "C" { fn struct_of(x: u8) -> u8; static enum_of: u8; }
pub trait Send2 { fn send(&self) where Self: Sized; }
pub async fn run<T: Serialize + for<'a> Deserialize<'a>>(t: T) -> Result<(), Box<dyn core::error::Error>> { Ok(()) }
#[derive(Serialize, Deserialize)]
pub struct A { pub a: u8 }
pub fn pick<F>(f: F) -> impl Fn(u8) -> u8 where F: Fn(u8) -> u8 { move |x| if x < 3 { f(x) } else { x >> 1 } }
#[derive(Serialize, Deserialize)]
pub struct B { pub b: u16 }
