pub mod text { pub use heapless::String; }
pub mod ours {
    // message
    pub struct String(pub u8);
}
// message
pub struct Hello { name: text::String<8> }
