pub mod a { #[derive(serde::Serialize)] pub struct P(pub u8); } pub mod b { pub struct P(pub u16); #[derive(serde::Serialize)] pub struct H { pub p: P } }
