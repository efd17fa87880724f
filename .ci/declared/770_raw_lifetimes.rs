//! Lifetimes by words of the language.
use serde::{Deserialize, Serialize};

#[derive(Serialize, Deserialize)]
pub struct Note<'r#fn, 'r#static_> {
    #[serde(borrow)]
    pub text: &'r#fn str,
    pub mark: char,
    pub rest: &'r#static_ [u8],
}

pub const MARKS: [char; 3] = ['r', '#', '\''];
