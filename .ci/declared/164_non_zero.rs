#[derive(Serialize, Deserialize)]
pub struct T { pub a: core::num::NonZeroU8, pub b: NonZero<u32>, pub c: Option<std::num::NonZeroI16>, pub d: std::sync::atomic::AtomicU32 }
