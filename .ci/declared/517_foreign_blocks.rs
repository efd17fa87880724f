use core::ffi::{c_int, CStr};
use serde::{Deserialize, Serialize};

const NAME: &CStr = c"a \"name\" { [";
const PATH: &CStr = cr#"C:\"quoted"\"#;
const QUOTE: u8 = b'\'';
const BRACE: [u8; 2] = [b'{', b'"'];

unsafe extern "C" {
    pub safe fn board_id() -> c_int;
    fn write(data: *const u8, len: usize, ...) -> c_int;
    static mut ERRNO: c_int;
}

#[repr(C)]
pub union Bits { whole: u32, halves: [u16; 2] }

#[unsafe(no_mangle)]
pub unsafe extern "C" fn on_message(_at: *mut Board) {}

#[derive(Serialize, Deserialize)]
#[repr(C, align(8))]
pub struct Board { pub id: i32, pub pins: [u8; BRACE_COUNT] }

pub const BRACE_COUNT: usize = 2;
