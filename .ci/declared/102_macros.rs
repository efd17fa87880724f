macro_rules! outer { ($a:tt) => { macro_rules! inner { () => { #[derive(Serialize)] struct X; } } } }
thread_local! { static A: u8 = 0; }
lazy_static::lazy_static!(static ref B: Vec<u8> = vec![b'#', b'[']; );
fn f(x: bool) -> bool { assert!(x != !(true), "} {"); !x }
#[derive(Serialize, Deserialize)]
struct A { a: u8 }
