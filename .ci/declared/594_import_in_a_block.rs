mod a { pub type Id = u8; pub mod k { pub type Id = u8; } }
mod b { pub type Id = u32; pub mod k { pub type Id = u32; } }
use a::k;
fn f() {
    use b::k;
    #[derive(Serialize)]
    struct A(k::Id);
    {
        use b::Id;
        #[derive(Serialize)]
        struct B(Id);
    }
}
#[derive(Serialize)]
struct C(k::Id);
