//! Declarations in the words of other items: their names would be those of the body around.
type Id = u8;

fn run() {
    type Id = u16;

    enum Level {
        Low = {
            #[derive(Serialize)]
            struct Inner(Id);
            3
        },
    }

    fn of(table: [u8; {
        // message
        struct Length(Id);
        4
    }]) {
    }

    const COUNT: usize = {
        #[derive(Serialize)]
        struct Value(Id);
        5
    };
}
