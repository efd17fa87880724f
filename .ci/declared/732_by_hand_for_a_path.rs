//! A type that is written by hand under the name that a trait gives it.
pub trait Kept {
    type State;
}

impl Kept for () {
    type State = Reading;
}

#[derive(serde::Deserialize)]
pub struct Reading {
    pub raw: u8,
    pub level: u16,
}

impl serde::Serialize for <() as Kept>::State {
    fn serialize<S: serde::Serializer>(&self, to: S) -> Result<S::Ok, S::Error> {
        to.serialize_u16(self.level)
    }
}
