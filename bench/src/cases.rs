//! The cases: what is called on what.
use crate::calls::{self, Calls, Found, Parts};
use crate::data::{self, message, Numbers, Record, KINDS};
use crate::frames::{bytes, first_zero, runs, vectors, wide, windows};
use crate::peers::{records as by_hand, streams as pieces, tight};
use crate::table::{size, Goal, Report};
use crate::timing::{named, run, without, Side, Timed, Way, Work};
use std::hint::black_box;

pub const LENGTHS: [usize; 6] = [4, 16, 64, 200, 1024, 64 << 10];
const LARGE: usize = 64 << 10;

fn side(calls: &Calls) -> Side {
    match calls.name {
        "ours" => Side::Ours,
        _ => Side::Before,
    }
}

fn way<'a>(side: Side, name: &'static str, work: Work<'a>) -> Way<'a> {
    Way { side, name, work }
}

/// A call that makes bytes of bytes, called so many times.
fn into_buffer<'a, T: 'a>(
    source: &'a [u8],
    room: usize,
    call: impl Fn(&[u8], &mut [u8]) -> T + 'a,
) -> Work<'a> {
    let mut dest = vec![0; room];
    Box::new(move |times| {
        for _ in 0..times {
            black_box(call(black_box(source), black_box(&mut dest)));
        }
    })
}

/// A call that works in place: each time the bytes are copied anew.
fn in_place<'a, T: 'a>(source: &'a [u8], call: impl Fn(&mut [u8]) -> T + 'a) -> Work<'a> {
    let mut buf = source.to_vec();
    Box::new(move |times| {
        for _ in 0..times {
            buf.copy_from_slice(black_box(source));
            black_box(call(black_box(&mut buf)));
        }
    })
}

/// The greatest length of a frame.
pub fn room(len: usize) -> usize {
    len + len.div_ceil(254).max(1)
}

type Encoder = fn(&[u8], &mut [u8]) -> usize;
type Decoder = fn(&[u8], &mut [u8]) -> Option<usize>;
type InPlace = fn(&mut [u8]) -> Option<usize>;

const ENCODERS: [(&str, Encoder); 4] = [
    ("bytes", bytes::encode),
    ("runs", runs::encode),
    ("16", wide::encode),
    ("vectors", vectors::encode),
];
const DECODERS: [(&str, Decoder); 5] = [
    ("bytes", bytes::decode),
    ("runs", runs::decode),
    ("16", wide::decode),
    ("windows", windows::decode),
    ("vectors", vectors::decode),
];
const IN_PLACE: [(&str, InPlace); 4] = [
    ("bytes", bytes::decode_in_place),
    ("runs", runs::decode_in_place),
    ("windows", windows::decode_in_place),
    ("vectors", vectors::decode_in_place),
];

/// Sees that all encode alike, and that ours refuse where there is one byte too few.
fn check_encoding(source: &[u8], frame: &[u8]) {
    let mut dest = vec![0; room(source.len())];
    for (name, encode) in ENCODERS {
        let len = encode(source, &mut dest);
        assert!(dest[..len] == *frame, "{name}");
    }
    for ours in calls::all() {
        assert_eq!(ours.try_encode(source, &mut dest), Some(frame.len()));
        assert!(dest[..frame.len()] == *frame);
        assert_eq!(ours.push(source, &mut dest), Some(frame.len()));
        assert!(dest[..frame.len()] == *frame);
        let short = &mut dest[..frame.len() - 1];
        assert_eq!(ours.try_encode(source, short), None);
        assert_eq!(ours.push(source, short), None);
    }
}

/// Sees that all decode alike.
fn check_decoding(framed: &[u8], source: &[u8]) {
    let mut dest = vec![0; source.len() + 1];
    let decoded = |len: Option<usize>, dest: &[u8]| len.is_some_and(|n| dest[..n] == *source);
    for (name, decode) in DECODERS {
        let len = decode(framed, &mut dest);
        assert!(decoded(len, &dest), "{name}");
    }
    for (name, decode) in IN_PLACE {
        let mut buf = framed.to_vec();
        let len = decode(&mut buf);
        assert!(decoded(len, &buf), "{name}");
    }
    for ours in calls::all() {
        let len = ours.decode(framed, &mut dest);
        assert!(decoded(len, &dest));
        let mut buf = framed.to_vec();
        let len = ours.decode_in_place(&mut buf);
        assert!(decoded(len, &buf));
    }
}

fn time_encoding(samples: usize, source: &[u8]) -> Vec<Timed> {
    let room = room(source.len());
    let mut ways = Vec::new();
    for ours in calls::all() {
        let work = into_buffer(source, room, move |s, d| ours.try_encode(s, d));
        ways.push(way(side(&ours), "try_encode", work));
        let work = into_buffer(source, room, move |s, d| ours.push(s, d));
        ways.push(way(side(&ours), "push", work));
        let length = bytes::encode(source, &mut vec![0; room]);
        let work = into_buffer(source, length, move |s, d| ours.try_encode(s, d));
        ways.push(way(side(&ours), "try_encode, no room to spare", work));
    }
    for (name, encode) in ENCODERS {
        ways.push(way(Side::Peer, name, into_buffer(source, room, encode)));
    }
    ways.push(way(Side::Bound, "memcpy", copying(source)));
    ways.push(way(Side::Bound, "memchr", searching(source)));
    run(samples, ways)
}

fn copying(source: &[u8]) -> Work<'_> {
    into_buffer(source, source.len(), |s, d| d.copy_from_slice(s))
}

fn searching(source: &[u8]) -> Work<'_> {
    into_buffer(source, 0, |s, _| first_zero(s))
}

fn time_decoding(samples: usize, framed: &[u8]) -> Vec<Timed> {
    let room = framed.len();
    let mut ways = Vec::new();
    for ours in calls::all() {
        let work = into_buffer(framed, room, move |s, d| ours.decode(s, d));
        ways.push(way(side(&ours), "decode", work));
    }
    for (name, decode) in DECODERS {
        ways.push(way(Side::Peer, name, into_buffer(framed, room, decode)));
    }
    run(samples, ways)
}

fn time_in_place(samples: usize, framed: &[u8]) -> Vec<Timed> {
    let mut ways = Vec::new();
    for ours in calls::all() {
        let work = in_place(framed, move |b| ours.decode_in_place(b));
        ways.push(way(side(&ours), "decode_in_place", work));
    }
    for (name, decode) in IN_PLACE {
        ways.push(way(Side::Peer, name, in_place(framed, decode)));
    }
    ways.push(way(Side::Bound, "copy", in_place(framed, |_| ())));
    without(&run(samples, ways), "copy")
}

/// What was aimed at before 27 November 2026: the ratio of a call on so many bytes of a kind to the best peer. The library had vectors
/// of 16 bytes then, and the peers' C library those of 32.
fn goal_before(call: &str, len: usize, kind: usize) -> f64 {
    match (call, len) {
        ("push", 16) => 1.2,
        ("try_encode" | "push", 1024 | LARGE) => [1.3, 1.0, 0.6, 0.1][kind],
        ("try_encode" | "push", 4) => 1.2,
        ("try_encode" | "push", _) => 1.3,
        ("decode", LARGE) => [1.2, 1.2, 0.9, 0.8][kind],
        ("decode", 1024) => 1.3,
        (_, 4) => 1.4,
        ("decode_with_sentinel", 16 | 64) => [1.3, 1.3, 1.1, 1.3][kind],
        ("decode_with_sentinel", _) => [1.6, 1.6, 1.1, 1.3][kind],
        ("encode_in_place", _) => 1.3,
        ("encoded_length", _) => 1.2,
        ("before_sentinel", 16 | 64) => 1.3,
        ("before_sentinel", _) => 1.5,
        ("decode", _) => 1.2,
        (_, _) if kind == 2 && len > 16 => 1.0,
        _ => 1.2,
    }
}

/// What is aimed at, by instructions and by time: of a call on so many bytes of a kind.
pub fn goal(call: &str, len: usize, kind: usize) -> Goal {
    let before = goal_before(call, len, kind);
    Goal::new(if len < 64 { before } else { 1.2 }, before)
}

/// The same of a stream in chunks of so many bytes: a decoder's `feed`, its `push`, and an accumulator's `feed`.
pub const STREAMED: f64 = 1.3;
pub const FED: Goal = Goal::new(STREAMED, 1.1);

pub fn pushing(piece: usize) -> Goal {
    let before = [(1, 1.1), (64, 0.7), (4096, 0.5)].into_iter().find(|goal| goal.0 == piece);
    Goal { now: STREAMED, before: before.map(|goal| goal.1) }
}

pub fn feeding(piece: usize) -> Goal {
    let before = [(1, 0.9), (64, 0.8), (4096, 0.7)].into_iter().find(|goal| goal.0 == piece);
    Goal { now: STREAMED, before: before.map(|goal| goal.1) }
}

/// The chunks of streams.
pub const PIECES: [usize; 7] = [1, 2, 4, 8, 16, 64, 4096];

/// The same for a record.
pub const WRITING: Goal = Goal::new(1.1, 0.9);
pub const READING: Goal = Goal::new(1.1, 0.95);

/// The same for another sentinel, over zero.
pub const ANOTHER: Goal = Goal::new(1.05, 1.05);

/// The times of each length and kind of one call.
type Grid = Vec<[Vec<Timed>; 4]>;

fn print_grid(report: &mut Report, call: &'static str, grid: &Grid) {
    report.begin(call);
    for (&len, times) in LENGTHS.iter().zip(grid) {
        for (kind, timed) in times.iter().enumerate() {
            let what = format!("`{call}`, {}, {}", size(len), KINDS[kind]);
            report.times(&what, timed, call, 1.0, Some(goal(call, len, kind)));
        }
    }
}

/// Prints what each call takes on no bytes: what is called, and nothing else.
fn print_nothing(samples: usize, report: &mut Report) {
    report.begin("no bytes");
    let rows = [
        ("try_encode", time_encoding(samples, &[])),
        ("push", time_encoding(samples, &[])),
        ("decode", time_decoding(samples, &[])),
        ("decode_in_place", time_in_place(samples, &[])),
    ];
    for (call, timed) in rows {
        report.times(&format!("`{call}`, 0"), &timed, call, 1.0, None);
    }
}

/// The sentinel that is timed beside zero.
const OTHER: u8 = 10;

/// The times for another sentinel and for zero, of frames whose bytes are each XORed with it.
fn time_sentinels<'a>(samples: usize, work: impl Fn(u8) -> Work<'a>) -> Vec<Timed> {
    run(samples, vec![way(Side::Ours, "another", work(OTHER)), way(Side::Peer, "zero", work(0))])
}

/// Frames for another sentinel than zero, over those for zero.
pub fn sentinels(samples: usize, report: &mut Report) {
    let ours = calls::OURS;
    report.begin("another sentinel");
    for len in LENGTHS {
        for kind in [KINDS[0], KINDS[2]] {
            let source = message(kind, len);
            let mut frame = vec![0; room(len) + 1];
            let count = runs::encode(&source, &mut frame);
            frame.truncate(count + 1);
            let masked = |sentinel: u8| -> Vec<u8> { frame.iter().map(|b| b ^ sentinel).collect() };
            let [zero, other] = [masked(0), masked(OTHER)];
            let framed = |sentinel| if sentinel == 0 { &zero } else { &other };
            let mut dest = vec![0; room(len)];
            for sentinel in [0, OTHER] {
                assert_eq!(ours.push_for(&source, &mut dest, sentinel), Some(count));
                assert!(dest[..count] == framed(sentinel)[..count]);
                assert_eq!(ours.decode_for(framed(sentinel), &mut dest, sentinel), Some(len));
                assert!(dest[..len] == source);
                let mut buf = framed(sentinel).clone();
                assert_eq!(ours.decode_in_place_for(&mut buf, sentinel), Some(len));
                assert!(buf[..len] == source);
            }
            let pushed = time_sentinels(samples, |sentinel| {
                into_buffer(&source, room(len), move |s, d| ours.push_for(s, d, sentinel))
            });
            let decoded = time_sentinels(samples, |sentinel| {
                let decode = move |s: &[u8], d: &mut [u8]| ours.decode_for(s, d, sentinel);
                into_buffer(framed(sentinel), room(len), decode)
            });
            let within = time_sentinels(samples, |sentinel| {
                in_place(framed(sentinel), move |b: &mut [u8]| ours.decode_in_place_for(b, sentinel))
            });
            for (call, timed) in [("push_for", pushed), ("decode_for", decoded), ("in_place_for", within)] {
                let what = format!("another sentinel, `{call}`, {}, {kind}", size(len));
                report.times(&what, &timed, "another", 1.0, Some(ANOTHER));
            }
        }
    }
}

/// Messages to frames and back.
pub fn encoding_and_decoding(samples: usize, report: &mut Report) {
    let mut encoding: Grid = Vec::new();
    let mut decoding: Grid = Vec::new();
    let mut in_place: Grid = Vec::new();
    for len in LENGTHS {
        let sources = KINDS.map(|kind| message(kind, len));
        let framed = sources.each_ref().map(|source| {
            let mut frame = vec![0; room(len) + 1];
            let count = runs::encode(source, &mut frame);
            frame.truncate(count);
            check_encoding(source, &frame);
            frame.push(0);
            check_decoding(&frame, source);
            frame
        });
        encoding.push(sources.each_ref().map(|s| time_encoding(samples, s)));
        decoding.push(framed.each_ref().map(|f| time_decoding(samples, f)));
        in_place.push(framed.each_ref().map(|f| time_in_place(samples, f)));
    }
    print_nothing(samples, report);
    print_grid(report, "try_encode", &encoding);
    print_grid(report, "push", &encoding);
    print_grid(report, "decode", &decoding);
    print_grid(report, "decode_in_place", &in_place);
}

/// How a stream is taken in, in pieces of so many bytes.
type Taking = fn(&[u8], usize) -> Found;

fn time_stream(
    samples: usize,
    stream: &[u8],
    piece: usize,
    name: &'static str,
    ours: fn(&Calls, &[u8], usize) -> Found,
    peers: &[(&'static str, Taking)],
) -> Vec<Timed> {
    let want = peers[0].1(stream, piece);
    assert!(want.values > 0 && want.refused == 0);
    let work = |call: &'static str, take: Box<dyn Fn(&[u8]) -> Found>| -> Work<'_> {
        assert_eq!(take(stream), want, "{call}");
        Box::new(move |times| {
            for _ in 0..times {
                black_box(take(black_box(stream)));
            }
        })
    };
    let mut ways = Vec::new();
    for calls in calls::all() {
        let take = Box::new(move |s: &[u8]| ours(&calls, s, piece));
        ways.push(way(side(&calls), name, work(calls.name, take)));
    }
    for &(peer, take) in peers {
        let take = Box::new(move |s: &[u8]| take(s, piece));
        ways.push(way(Side::Peer, peer, work(peer, take)));
    }
    run(samples, ways)
}

/// Streams of frames in chunks: a decoder's messages, and an accumulator's records.
pub fn streams(samples: usize, report: &mut Report) {
    let stream = data::stream(1 << 20);
    report.begin("streams");
    let taking: [(&str, Taking); 3] = [
        ("bytes", pieces::messages_by_bytes),
        ("runs", pieces::messages_by_runs),
        ("vectors", pieces::messages_by_vectors),
    ];
    for piece in PIECES {
        let timed = time_stream(samples, &stream, piece, "push", Calls::messages, &taking);
        report.times(&format!("decoder's `push`, chunks of {piece}"), &timed, "push", stream.len() as f64, Some(pushing(piece)));
    }
    let taking: [(&str, Taking); 3] = [
        ("accumulator", pieces::records_by_accumulator),
        ("runs", pieces::records_by_runs),
        ("vectors", pieces::records_by_vectors),
    ];
    for piece in PIECES {
        let timed = time_stream(samples, &stream, piece, "feed", Calls::records, &taking);
        report.times(&format!("accumulator's `feed`, chunks of {piece}"), &timed, "feed", stream.len() as f64, Some(feeding(piece)));
    }
}

type Writing = fn(&Record<'_>, &mut [u8]) -> Option<usize>;
type Reading = fn(&[u8]) -> Option<Parts>;

fn time_writing(samples: usize, record: &Record<'_>, want: &[u8]) -> Vec<Timed> {
    let mut ways = Vec::new();
    let mut add = |side, name, write: Box<dyn Fn(&Record<'_>, &mut [u8]) -> Option<usize>>| {
        let mut room = [0; 256];
        let written = write(record, &mut room).expect("there is room");
        assert!(room[..written] == *want, "{name}");
        assert_eq!(write(record, &mut room[..want.len() - 1]), None, "{name}");
        let work = move |times| {
            for _ in 0..times {
                black_box(write(black_box(record), black_box(&mut room)));
            }
        };
        ways.push(way(side, name, Box::new(work)));
    };
    for ours in calls::all() {
        add(
            side(&ours),
            "to_slice",
            Box::new(move |r, room| ours.write(r, room)),
        );
    }
    let peers: [(&str, Writing); 3] = [
        ("crate", by_hand::crate_like::write),
        ("straight", by_hand::write),
        ("tight", tight::write),
    ];
    for (name, write) in peers {
        add(Side::Peer, name, Box::new(write));
    }
    #[cfg(real_postcard)]
    add(Side::Peer, "postcard", Box::new(real::write));
    run(samples, ways)
}

fn time_reading(samples: usize, bytes: &[u8], want: Parts) -> Vec<Timed> {
    let mut ways = Vec::new();
    let mut add = |side, name, read: Box<dyn Fn(&[u8]) -> Option<Parts>>| {
        assert_eq!(read(bytes), Some(want), "{name}");
        assert_eq!(read(&bytes[..bytes.len() - 1]), None, "{name}");
        let work = move |times| {
            for _ in 0..times {
                black_box(read(black_box(bytes)));
            }
        };
        ways.push(way(side, name, Box::new(work)));
    };
    for ours in calls::all() {
        let read = move |bytes: &[u8]| {
            let mut parts = Parts::default();
            ours.read(bytes, &mut parts).then_some(parts)
        };
        add(side(&ours), "from_bytes", Box::new(read));
    }
    let peers: [(&str, Reading); 3] = [
        ("crate", by_hand::crate_like::read),
        ("straight", by_hand::read),
        ("tight", tight::read),
    ];
    for (name, read) in peers {
        add(Side::Peer, name, Box::new(read));
    }
    #[cfg(real_postcard)]
    add(Side::Peer, "postcard", Box::new(real::read));
    run(samples, ways)
}

/// The Rust crate, where one is given.
#[cfg(real_postcard)]
mod real {
    use super::{by_hand, Parts, Record};

    pub fn write(record: &Record<'_>, room: &mut [u8]) -> Option<usize> {
        let fields = (
            record.number,
            record.big,
            record.text,
            record.perhaps,
            record.list,
        );
        postcard::to_slice(&fields, room)
            .ok()
            .map(|front| front.len())
    }

    pub fn read(bytes: &[u8]) -> Option<Parts> {
        type Fields<'a> = (u32, u64, &'a str, Option<u16>, Vec<u16>);
        let (number, big, text, perhaps, list) = postcard::from_bytes::<Fields<'_>>(bytes).ok()?;
        Some(by_hand::parts(number, big, text, perhaps, &list))
    }
}

/// A record to bytes and back.
pub fn records(samples: usize, report: &mut Report) {
    let list = data::list(&mut Numbers(6), 32);
    let record = data::record(&list);
    let mut spelling = vec![0; 256];
    let count = by_hand::write(&record, &mut spelling).expect("there is room");
    spelling.truncate(count);
    let parts = by_hand::parts(
        record.number,
        record.big,
        record.text,
        record.perhaps,
        &list,
    );
    report.begin("a record");
    let timed = time_writing(samples, &record, &spelling);
    report.times("a record's `to_slice`", &timed, "to_slice", 1.0, Some(WRITING));
    let timed = time_reading(samples, &spelling, parts);
    report.times("a record's `from_bytes`", &timed, "from_bytes", 1.0, Some(READING));
}

/// What a byte costs, in nanoseconds: by each of our calls, and by memcpy.
struct Cost {
    calls: [(&'static str, f64); 3],
    copy: f64,
}

fn cost(samples: usize, kind: &str, len: usize) -> Cost {
    let source = message(kind, len);
    let mut frame = vec![0; room(len) + 1];
    let count = runs::encode(&source, &mut frame);
    let framed = &frame[..count + 1];
    let each = |timed: &[Timed], side, name| named(timed, side, name).expect("it is timed") / len as f64;
    let ours = |timed: &[Timed], name| (name, each(timed, Side::Ours, name));
    let encoding = time_encoding(samples, &source);
    Cost {
        calls: [
            ours(&encoding, "try_encode"),
            ours(&time_decoding(samples, framed), "decode"),
            ours(&time_in_place(samples, framed), "decode_in_place"),
        ],
        copy: each(&encoding, Side::Bound, "memcpy"),
    }
}

/// How much more a byte costs of 4 MiB than of 64 KiB: it should grow no more than it does for memcpy, which leaves the caches too.
pub fn growth(samples: usize, report: &mut Report) {
    report.begin("growth");
    for kind in &KINDS[..2] {
        let [few, many] = [LARGE, 4 << 20].map(|len| cost(samples, kind, len));
        let copy = many.copy / few.copy;
        for ((call, before), (_, after)) in few.calls.iter().zip(&many.calls) {
            let what = format!("growth of `{call}`, {kind}");
            report.line(&what, "factor", after / before, &[("memcpy", copy)], Some(Goal::new(1.0, 1.0)));
        }
    }
}
