#[derive(Archive, Serialize, Deserialize)]
#[archive(check_bytes)]
#[ts(export)]
struct A { a: u8 }
#[derive(Serialize, Deserialize, TryFromPrimitive)]
#[num_enum(error_type(name = E, constructor = E::new))]
#[repr(u8)]
enum B { X, Y }
