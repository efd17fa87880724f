#[derive(rkyv::Serialize, rkyv::Deserialize, Debug)]
struct Other { a: HashMap<f32, Foo> }
#[derive(Clone, serde::Serialize, ::serde::Deserialize)]
struct A { a: u8 }
