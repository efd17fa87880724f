pub mod v1 {
    // message
    pub struct Config(pub u8);
}
pub mod v2 {
    // message
    pub struct Config(pub u16);
}
// message
enum Stored { V1(v1::Config), V2(v2::Config) }
