mod v1 {
    // message
    pub struct Config(pub u8);
}
mod v2 {
    // message
    pub struct Config(pub u16);
}
// message
struct A { c: Config }
