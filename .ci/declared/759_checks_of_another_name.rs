// It has the name of a check, but is another macro.
use generated::ids as assert_ids;
use units::*;

mod units {
    pub type Level = u16;
}

assert_ids!(Level);

// message
struct Reading(Level);

fn inside() {
    use generated::id as const_assert_id;
    const_assert_id!(Level);

    // message
    struct Other(Level);
}
