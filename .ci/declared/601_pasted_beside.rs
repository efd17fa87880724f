//! Names that are declared or brought in where a macro makes others, and macros that make names of functions alone.
use serde::{Deserialize, Serialize};

macro_rules! pins {
    ($($name:ident),*) => {
        paste::paste! { $(pub struct [<$name Pin>];)* }
    };
}

macro_rules! setters {
    ($name:ident) => {
        paste::paste! {
            pub fn [<set_ $name>](device: &mut Device) {
                let [<old_ $name>] = device.[<read_ $name>]();
                device.write([<old_ $name>] + 1);
            }
        }
    };
}

pub mod ids {
    use serde::{Deserialize, Serialize};

    #[derive(Serialize, Deserialize)]
    pub struct Id(pub u16);
}

pub mod frames {
    use super::ids::Id;
    use serde::{Deserialize, Serialize};

    super::pins!(Reset);

    #[derive(Serialize, Deserialize)]
    pub struct Level(pub Id);
}

use ids::Id;

pins!(Led, Button);

#[derive(Serialize, Deserialize)]
pub struct Frame(pub Id, pub ids::Id, pub Own, pub Option<u8>);

#[derive(Serialize, Deserialize)]
pub struct Own(pub u8);
