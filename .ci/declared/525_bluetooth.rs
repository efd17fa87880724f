use serde::{Deserialize, Serialize};

#[derive(Clone, Copy, Serialize, Deserialize)]
pub struct Address(pub [u8; 6]);

#[derive(Clone, Copy, Serialize, Deserialize)]
pub enum Uuid { Short(u16), Long(u128) }

#[derive(Serialize, Deserialize)]
pub struct Advertisement<'d> {
    pub address: Address,
    pub power: Option<i8>,
    pub services: &'d [Uuid],
    pub data: &'d [u8],
}

#[derive(Serialize, Deserialize)]
pub struct Connection { pub peer: Option<Address>, pub interval: (u16, u16), pub handles: [Option<Uuid>; 1] }
