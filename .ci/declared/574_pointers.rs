#[derive(Serialize)]
pub struct A {
    a: *const u8,
    b: Box<dyn Fn(u8) -> u8>,
    c: unsafe extern "C" fn(u8),
    d: for<'a> fn(&'a u8),
    e: pub_types::Id,
}
