mod x {
    // message
    pub struct String(u8);
}
// message
struct A { s: String, n: u8 }
mod y {
    // message
    pub struct u8(u16);
}
