#[derive(Serialize)]
pub struct G<T> {
    #[serde(flatten)]
    of: T,
}
#[derive(Serialize)]
pub struct A(G<u8>, G<u16>, G<u8>);
#[derive(Serialize)]
pub struct B(G<u8>);
#[derive(Serialize)]
pub struct C(u8);
