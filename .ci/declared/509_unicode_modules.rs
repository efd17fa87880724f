use serde::{Deserialize, Serialize};

/// Größen, je Modul.
pub mod größen {
    use serde::{Deserialize, Serialize};

    pub const ÉCHANTILLONS: usize = 1 + 2;

    /// In Metern, nicht in 里.
    #[derive(Serialize, Deserialize)]
    pub struct Länge(pub u16);
}

use größen::Länge;

#[derive(Serialize, Deserialize)]
pub enum Événement {
    Début,
    Fin { durée: u32, λ: [Länge; größen::ÉCHANTILLONS] },
    温度(i8),
}
