pub trait Frame { const SIZE: usize; type Body; }
pub struct Short;
impl Frame for Short { const SIZE: usize = 4; type Body = [u8; 4]; }
#[derive(serde::Serialize, serde::Deserialize)]
pub struct B { pub a: [u8; <Short as Frame>::SIZE] }
#[derive(serde::Serialize, serde::Deserialize)]
pub struct C { pub a: [u8; Short::SIZE] }
