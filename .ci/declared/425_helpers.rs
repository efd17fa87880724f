#[derive(serde::Serialize, zerocopy::IntoBytes)]
#[zerocopy(crate = "x")]
struct A(u8);
#[derive(binrw::BinRead)]
#[derive(serde::Serialize)]
#[binrw(little)]
struct B(u8);
