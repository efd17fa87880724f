macro_rules! message {
    ($name:ident { $($field:ident: $ty:ty),* }) => {
        #[derive(Serialize, Deserialize)]
        pub struct $name { $(pub $field: $ty),* }
    };
}
message!(Made { a: u8, b: u16 });
#[derive(Serialize, Deserialize)]
pub struct A { pub m: Made }
