const HELP: &str = "#[derive(Serialize)] struct Fake { a: u8 }";
const RAW: &str = r##"
#[derive(Serialize, Deserialize)]
struct Raw { a: u64 }
"##;
const CHARS: [char; 4] = ['"', '\\', '\'', '#'];
const BYTES: &[u8] = b"\"#[derive(Serialize)]\"";
const C: &core::ffi::CStr = c"#[derive(Serialize)]";
fn f() { println!("{} #[derive(Serialize)] struct X;", 'a'); let r = 1..=2; let x = (1.0_f32, 2.); let y = x.0; }
#[derive(Serialize, Deserialize)]
pub struct A { pub a: u16 }
