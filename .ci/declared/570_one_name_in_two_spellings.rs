// The letters of a name are the same to Rust with the accent in them and with the accent after them.
type Durée = u16;
mod old {
    pub type Durée = u8;
}
#[derive(Serialize)]
struct Passé(Durée, old::Durée, r#Durée);
#[derive(Serialize)]
struct Both {
    aé: Passé,
    col·lecció: [u8; Coét],
}
const Coét: usize = 2;
