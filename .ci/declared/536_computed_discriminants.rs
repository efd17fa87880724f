use serde::{Deserialize, Serialize};

const BASE: u8 = 0x40;

#[derive(Clone, Copy, Serialize, Deserialize)]
#[repr(u8)]
pub enum Key {
    Up = b'A',
    Down = Self::after(b'A', { 0 }),
    Comma = b',',
    Brace = b'}',
    Left = if BASE > 3 { BASE } else { 9 },
    Right = match BASE { 0..=3 => 1, _ => BASE | 0x0f },
    Home = { const N: u8 = 7; N ^ 0x80 },
    End = !0,
}

impl Key {
    const fn after(of: u8, more: u8) -> u8 { of + 1 + more }
}

#[derive(Serialize, Deserialize)]
pub struct Pressed { pub key: Key, pub held: bool, pub before: [Key; 2] }
