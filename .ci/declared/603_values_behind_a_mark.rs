//! A `!` that negates a value, before blocks with declarations and beside names of types.
use serde::{Deserialize, Serialize};

#[derive(Serialize, Deserialize)]
pub enum Kind {
    Idle,
    Speed(u16),
}

pub fn run(is_ready: bool, kind: &Kind) -> bool {
    #[derive(Serialize)]
    struct Line {
        kind: Kind,
        count: u8,
    }

    if !is_ready {
        #[derive(Serialize)]
        struct Late {
            at: u32,
        }

        send(&Late { at: now() }, Kind::Idle);
        return !(is_same(kind, &Kind::Idle));
    }
    while !is_sent {
        wait(Kind::Idle);
    }
    match !(is_ready) {
        true => log(Kind::Idle),
        false => {}
    }
    state() != (Kind::Idle) && !(is_same(kind, &Kind::Idle))
}
