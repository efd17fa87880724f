//! Remote calls over memory: what a server takes for each request, and a client for each call and its reply.
use crate::counts::{count, Counts};
use crate::peers::remote as by_hand;
use crate::table::{Goal, Report};
use crate::timing::{run, Side, Way};
use std::hint::black_box;

/// What came of calls: how many were executed or replied to, a sum over what was said, and how many bytes were written.
#[repr(C)]
#[derive(Clone, Copy, Debug, Default, PartialEq)]
pub struct Counted {
    pub calls: u64,
    pub sum: u64,
    pub written: usize,
}

type Serve = fn(&[u8], &mut [u8], &mut Counted);
type Call = fn(&[u8], usize, u64, u16, &mut [u8], &mut Counted);

macro_rules! sides {
    ($module:ident, $prefix:literal) => {
        mod $module {
            use super::Counted;

            extern "C" {
                #[link_name = concat!($prefix, "calls_c_serve")]
                fn calls_c_serve(r: *const u8, n: usize, room: *mut u8, m: usize, counted: *mut Counted);
                #[link_name = concat!($prefix, "calls_c_call")]
                fn calls_c_call(
                    replies: *const u8,
                    n: usize,
                    each: usize,
                    first: u64,
                    count: u16,
                    room: *mut u8,
                    m: usize,
                    counted: *mut Counted,
                );
            }

            pub fn serve(requests: &[u8], room: &mut [u8], counted: &mut Counted) {
                let (n, m) = (requests.len(), room.len());
                // SAFETY: two slices that don't overlap, each by its pointer and its length, and a struct of C's layout.
                unsafe { calls_c_serve(requests.as_ptr(), n, room.as_mut_ptr(), m, counted) }
            }

            pub fn call(replies: &[u8], each: usize, first: u64, count: u16, room: &mut [u8], counted: &mut Counted) {
                let (n, m) = (replies.len(), room.len());
                // SAFETY: two slices that don't overlap, each by its pointer and its length, and a struct of C's layout.
                unsafe { calls_c_call(replies.as_ptr(), n, each, first, count, room.as_mut_ptr(), m, counted) }
            }
        }
    };
}

sides!(now, "");

/// What is aimed at.
const GOAL: Goal = Goal::new(1.1, 1.1);

const SERVERS: [(&str, Serve); 3] = [("ours", now::serve), ("by hand", by_hand::serve::<false>), ("vectors", by_hand::serve::<true>)];
const CLIENTS: [(&str, Call); 3] = [("ours", now::call), ("by hand", by_hand::call::<false>), ("vectors", by_hand::call::<true>)];

/// So many calls are made, by numbers of two bytes.
const CALLS: u16 = 1000;
const FIRST: u64 = 1000;
/// What both sides take at most, in a call.
const MOST: usize = 34;

/// Room for all that one side writes.
fn room() -> Vec<u8> {
    vec![0; MOST * usize::from(CALLS)]
}

/// The two lines of the calls: what the client writes, and what the server does.
struct Lines {
    requests: Vec<u8>,
    replies: Vec<u8>,
}

impl Lines {
    /// The lines, which are seen to be the same by all ways.
    fn new() -> Lines {
        let [requests, others @ ..] = CLIENTS.map(|(_, call)| {
            let (mut room, mut counted) = (room(), Counted::default());
            call(&[], 1, FIRST, CALLS, &mut room, &mut counted);
            room[..counted.written].to_vec()
        });
        assert_eq!([&requests, &requests], others.each_ref());
        let [(replies, served), others @ ..] = SERVERS.map(|(_, serve)| {
            let (mut room, mut counted) = (room(), Counted::default());
            serve(&requests, &mut room, &mut counted);
            (room[..counted.written].to_vec(), counted)
        });
        assert_eq!(served.calls, CALLS.into());
        assert!(others.iter().all(|other| (&other.0, other.1) == (&replies, served)));
        let lines = Lines { requests, replies };
        let mut room = room();
        let called = CLIENTS.map(|(_, call)| lines.call(call, &mut room));
        assert_eq!((called[0].calls, [called[0], called[0]]), (CALLS.into(), [called[1], called[2]]));
        lines
    }

    fn serve(&self, serve: Serve, room: &mut [u8]) -> Counted {
        let mut counted = Counted::default();
        black_box(serve)(black_box(&self.requests), room, &mut counted);
        black_box(counted)
    }

    /// Each read gives one reply: the zero before the first one is no part of any.
    fn call(&self, call: Call, room: &mut [u8]) -> Counted {
        let mut counted = Counted::default();
        let replies = &self.replies[1..];
        let each = replies.len() / usize::from(CALLS);
        black_box(call)(black_box(replies), each, FIRST, CALLS, room, &mut counted);
        black_box(counted)
    }
}

/// Times both sides.
pub fn calls(samples: usize, report: &mut Report) {
    let lines = Lines::new();
    report.begin("a remote call");
    let way = |name: &'static str, mut work: Box<dyn FnMut()>| {
        let side = if name == "ours" { Side::Ours } else { Side::Peer };
        Way { side, name, work: Box::new(move |times| (0..times).for_each(|_| work())) }
    };
    let lines: &'static Lines = Box::leak(Box::new(lines));
    let served = SERVERS.map(|(name, serve)| way(name, {
        let mut room = room();
        Box::new(move || { lines.serve(serve, &mut room); })
    }));
    let called = CLIENTS.map(|(name, call)| way(name, {
        let mut room = room();
        Box::new(move || { lines.call(call, &mut room); })
    }));
    for (side, ways) in [("the server", served), ("the client", called)] {
        let timed = run(samples, ways.into());
        report.times(&format!("a remote call, {side}"), &timed, "ours", f64::from(CALLS), Some(GOAL));
    }
}

/// Counts both sides, where valgrind looks on.
pub fn count_calls() {
    let lines = Lines::new();
    let mut room = room();
    for (whose, serve) in SERVERS {
        count(&format!("serve/{whose}/0/"), || {
            lines.serve(serve, &mut room);
        });
    }
    for (whose, call) in CLIENTS {
        count(&format!("call/{whose}/0/"), || {
            lines.call(call, &mut room);
        });
    }
}

/// Prints what was counted.
pub fn print_calls(counts: &Counts, report: &mut Report) {
    report.begin("a remote call");
    for (call, side) in [("serve", "the server"), ("call", "the client")] {
        let of = |whose| counts.of(call, whose, 0, "") / f64::from(CALLS);
        let peers = ["by hand", "vectors"].map(|whose| (whose, of(whose)));
        report.line(&format!("a remote call, {side}"), "call", of("ours"), &peers, Some(GOAL));
    }
}
