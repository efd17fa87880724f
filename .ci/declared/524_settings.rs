use heapless::{String, Vec};
use serde::{Deserialize, Serialize};

pub const SSID: usize = 32;

#[derive(Default, Serialize, Deserialize)]
#[serde(default)]
pub struct Settings {
    pub name: Option<String<8>>,
    pub networks: Vec<Network, 2>,
    pub servers: Vec<(String<4>, u16), 2>,
    pub rows: Vec<Vec<i8, 3>, 2>,
}

#[derive(Serialize, Deserialize)]
pub struct Network {
    pub ssid: String<SSID>,
    pub auth: Auth,
}

#[derive(Default, Serialize, Deserialize)]
pub enum Auth { #[default] Open, Psk(String<{ SSID * 2 - 1 }>) }
