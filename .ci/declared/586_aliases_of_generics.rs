pub type Small = Report<u8, 2>;
pub type Pair<T> = (T, T);
pub mod short {
    pub type Large<'a> = super::Report<&'a str, { super::N }>;
}
pub const N: usize = 1 << 1;
#[derive(Serialize)]
pub struct Report<T, const N: usize> {
    pub of: [T; N],
}
#[derive(Serialize)]
pub struct A(Small, Option<Small>);
#[derive(Serialize)]
pub struct B<'a>(short::Large<'a>);
#[derive(Serialize)]
pub struct C(Pair<u8>);
