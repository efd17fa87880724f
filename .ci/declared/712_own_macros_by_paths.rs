//! Macros of the file by paths make what their rules say, and checks make nothing.
use ids::*;

mod macros {
    macro_rules! check {
        () => {};
    }
    pub(crate) use check;
}

crate::macros::check!();
self::macros::check!();

mod ids {
    pub type DeviceId = u8;
}

#[derive(Serialize)]
struct Hello {
    id: DeviceId,
}
