use core::num::NonZeroU16;
#[derive(Serialize, Deserialize)]
struct T { id: NonZeroU16 }
