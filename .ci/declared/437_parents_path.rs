type Level = u16;
mod inner {
    type Level2 = u8;
    mod deep {
        // message
        struct A(super::super::Level);
    }
}
