// message
struct A { a: [u8; core::mem::size_of::<u32>()], b: [u8; size_of::<u16>() * 2], c: [u8; !0 as usize], d: [u8; 6 & 3] }
