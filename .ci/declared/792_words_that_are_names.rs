// Words of the language that are names here, raw or as they are.
mod union {
    // message
    pub struct auto(pub [u8; 1]);
}
mod path {
    // message
    pub struct union(pub [u8; 2]);
    // message
    pub struct default(pub [u8; 3]);
}
mod derive {
    pub type macro_rules = [u8; 4];
    // message
    pub struct safe(pub [u8; 5]);
}
mod r#type {
    // message
    pub struct r#struct(pub [u8; 6]);
    pub mod r#mod {
        pub type r#type = [u8; 7];
    }
    pub const r#fn: usize = 8;
}
// message
struct Weak(union::auto, path::union, path::default, derive::macro_rules, derive::safe);
// message
struct Raw(r#type::r#struct, r#type::r#mod::r#type, [u8; r#type::r#fn]);
mod user {
    use super::r#type::{r#mod as r#use, r#struct, self as kinds};
    // message
    struct Used(r#use::r#type, r#struct, kinds::r#mod::r#type, self::r#struct);
}
fn body(union: u8) -> u8 {
    let _ = union as u8;
    // message
    struct Inside(path_of::union);
    union
}
use path as path_of;
