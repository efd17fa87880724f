// message
struct Reading(u16);
#[test]
fn reads() {
    #[derive(serde::Serialize)]
    struct Reading(u8);
}
// message
struct Uses(Reading);
