use serde::{Deserialize, Serialize};

#[derive(Clone, Copy, Default, Serialize, Deserialize)]
pub struct Rgb8 { pub r: u8, pub g: u8, pub b: u8 }

#[derive(Serialize, Deserialize)]
pub struct Strip<P, const N: usize>
where
    [P; N]: Sized,
{
    pub pixels: [P; N],
    pub brightness: Option<u8>,
}

const RING: usize = 2;

pub type Ring = Strip<Rgb8, RING>;
pub type Matrix = Strip<Strip<(u8, bool), { RING + 1 }>, 1>;

#[derive(Serialize, Deserialize)]
pub enum Effect {
    Off,
    Solid(Rgb8),
    Show(Ring),
    Grid(Matrix),
    Fade { from: Rgb8, to: Rgb8, steps: u16 },
}
