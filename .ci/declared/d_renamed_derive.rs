use serde as s;
#[derive(s::Serialize, s::Deserialize)]
struct C(u8);
#[derive(Serialize)]
struct A(u8);
