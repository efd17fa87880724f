extern crate alloc;
static TABLE: [u8; 3] = [b'{', b'\'', b'"'];
static S: &[u8] = br#"a "quoted" }"#;
const C: char = '\u{7b}';
fn run<'a>(x: &'a str) -> impl Fn(u8) -> u8 + 'a { 'outer: loop { if x.len() > 1 { break 'outer; } } move |a| { a } }
unsafe extern "C" fn isr() { core::arch::asm!("nop {0}", in(reg) 1); }
trait Tr { type Out; const N: usize; fn f(&self) -> Self::Out where Self: Sized; }
impl Tr for u8 { type Out = [u8; 2]; const N: usize = 2; fn f(&self) -> Self::Out { [*self; 2] } }
#[derive(serde::Serialize, serde::Deserialize)]
pub struct Mid(u8, u16,);
async fn task(spawner: Spawner) -> ! { let x = S[0] as char; match x { '}' => {}, _ => {} } loop {} }
macro_rules! reg { ($name:ident, $ty:ty $(, $rest:expr)*) => { pub const $name: $ty = 0 $(+ $rest)*; }; }
reg!(A, u8, 1, 2);
#[cfg(test)]
mod tests { use super::*; #[test] fn t() { assert_eq!(Mid(1, 2).0, 1); } }
#[derive(serde::Serialize, serde::Deserialize)]
pub struct End { mid: Mid }
