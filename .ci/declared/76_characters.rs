const QUOTE: char = '\'';
const HASH: u8 = b'#';
const OPEN: char = '{';
const DOUBLE: char = '"';
const BACK: char = '\\';
const WIDE: char = 'é';
fn f<'a>(x: &'a str, r#type: u8) -> char { if x == "}" { '}' } else { '\u{7d}' } }
static S: &core::ffi::CStr = c"#[";
#[derive(Serialize)]
struct A<'a> { a: &'a str }
fn g() { let _ = r#"
#[derive(Serialize)] struct Hidden;
"#; }
#[derive(Serialize)]
struct B { b: u8 }
