//! A macro of another crate by its path isn't the one that the file has by that name.
use ids::*;

macro_rules! make {
    () => {};
}

make!();
maker::make!();

mod ids {
    pub type DeviceId = u8;
}

#[derive(Serialize)]
struct Hello {
    id: DeviceId,
}
