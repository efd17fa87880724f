pub const r#type: usize = 3;
pub mod r#mod {
    pub const r#fn: usize = super::r#type + 1;
    pub type r#in = [u8; r#fn];
}
#[derive(Serialize)]
pub struct r#Struct {
    pub r#as: [u8; r#type],
    pub r#use: [u8; r#mod::r#fn],
    pub r#dyn: r#mod::r#in,
}
