#[cfg(feature = "v2")]
#[path = "v2.rs"]
mod proto;
#[cfg(not(feature = "v2"))]
mod proto {
    pub type Level = u8;
}
#[derive(Serialize)]
struct A(proto::Level);
