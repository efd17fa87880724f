use std::{char, f32, str, u8};
use core::u16;
const N: usize = u8::MAX as usize;
// message
struct A<'a> { s: &'a str, c: char, f: f32, n: u16, m: [u8; N], k: [bool; core::u8::MAX as usize] }
