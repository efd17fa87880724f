// The macro may make a module there.
mod units {
    pub type Level = u8;
    pub const COUNT: usize = 3;
}

fn inside() {
    generated::units!(units);

    // message
    struct Reading {
        level: units::Level,
        all: [u8; units::COUNT],
    }

    // one that no macro is handed
    // message
    struct Other {
        level: crate::units::Level,
    }
}
