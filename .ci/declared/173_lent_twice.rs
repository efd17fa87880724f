#[derive(Serialize, Deserialize)]
pub struct A<'a, 'b: 'a, T: 'a + ?Sized> { #[serde(borrow)] pub a: &'a str, pub b: &'b [u8], #[serde(skip)] pub p: core::marker::PhantomData<&'a T> }
#[derive(Serialize)]
pub struct B<'a> { pub a: &'a mut u16, pub b: &'a &'a u8, pub c: &'a [A<'a, 'a, u8>], pub d: &'a [u8; 4], pub e: &'a (u8, u8) }
