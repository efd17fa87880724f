mod renamed {
    use rkyv::Serialize as Serialize;
    #[derive(Serialize)]
    pub struct A { pub a: u8 }
}
mod called {
    use any::Write as Serialize;
    #[derive(Serialize)]
    pub struct B { pub a: u8 }
}
mod all {
    use rkyv::*;
    #[derive(Serialize)]
    pub struct C { pub a: u8 }
}
mod unknown {
    use any::derives::{Deserialize, Other};
    #[derive(Deserialize)]
    pub struct D { pub a: u8 }
}
mod turned {
    use serde::Deserialize as Serialize;
    #[derive(Serialize)]
    pub struct E { pub a: u8 }
}
mod hidden {
    use rkyv as serde;
    use serde::Serialize;
    #[derive(Serialize)]
    pub struct F { pub a: u8 }
}
mod body {
    use serde::Serialize;
    fn f() {
        use rkyv::*;
        #[derive(Serialize)]
        struct G(u8);
    }
}
