// What has the name of a function, too, is taken where it is visible, or nothing else could be meant.
mod codec {
    pub fn level() {}
    mod level {
        pub type Level = u8;
        pub type Wide = u16;
    }
    mod inner {
        use super::level;
        // message
        struct Inner(level::Level);
    }
    pub fn Id() {}
    pub(super) type Id = u32;
    // message
    struct Own(level::Wide, Id);
}

mod user {
    use super::codec::Id;
    // message
    struct User(Id, u8);
}
