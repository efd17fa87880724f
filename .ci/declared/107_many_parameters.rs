#[derive(Serialize, Deserialize)]
pub struct A<'a, 'b: 'a, T: 'a + Copy, const N: usize> { a: &'a T, b: [&'b str; N], c: PhantomData<(T, &'a u8)> }
#[derive(Serialize, Deserialize)]
pub struct U<'x> { u: A<'x, 'static, u16, 2> }
