use serde::{de::DeserializeOwned, Deserialize, Serialize};

pub trait Codec { type Raw; const WIDTH: usize; }

#[derive(Serialize, Deserialize)]
#[serde(bound = "T: Serialize + DeserializeOwned")]
pub struct Reply<T, F = Never>
where
    T: Clone + 'static,
    for<'x> F: Fn(&'x T) -> Option<&'x T>,
{
    pub token: u16,
    pub body: T,
    #[serde(skip, default = "Option::default")]
    pub map: Option<F>,
}

pub enum Never {}

#[derive(Clone, Serialize, Deserialize)]
pub struct Text(heapless::String<4>);

#[derive(Serialize, Deserialize)]
pub struct Session { pub last: Reply<[Text; 2], Never>, pub count: u8 }
