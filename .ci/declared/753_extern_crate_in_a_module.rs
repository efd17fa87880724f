use serde::{Deserialize, Serialize};

/// Only this module has the name, which elsewhere is a crate's.
mod old {
    extern crate heapless as v1;

    use serde::{Deserialize, Serialize};

    #[derive(Serialize, Deserialize)]
    pub struct Name(pub v1::String<3>);
}

mod tests {
    extern crate std;
}

#[derive(Serialize, Deserialize)]
pub struct Hello {
    pub name: v1::String<3>,
}

#[derive(Serialize, Deserialize)]
pub struct Text(pub std::string::String);
