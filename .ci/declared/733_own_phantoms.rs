//! A type of the file's own that is called `PhantomData`, which serde leaves out of a transparent type by its name.
use serde::Serialize;

#[derive(Serialize)]
pub struct PhantomData<T>(pub T);

#[derive(Serialize)]
#[serde(transparent)]
pub struct Frame {
    pub at: u8,
    pub kept: PhantomData<u16>,
}
