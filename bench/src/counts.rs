//! Counts the instructions of calls, ours and the peers', by `valgrind --tool=callgrind`, and prints them. No load of the machine
//! changes them.
use crate::calls::{Calls, Found, Parts, OURS};
use crate::cases::{feeding, goal, pushing, room, ANOTHER, FED, LENGTHS, PIECES, READING, WRITING};
use crate::data::{self, message, record, Record, KINDS};
use crate::frames::{bytes, runs, vectors, wide, windows};
use crate::layers;
use crate::peers::{records as by_hand, streams as pieces, tight};
use crate::remote;
use crate::table::{size, Report};
use std::collections::BTreeMap;
use std::hint::black_box;
use std::path::Path;
use std::process::Command;
use std::{env, fs};

/// How long a stream is, at least.
const STREAM: usize = 64 << 10;
/// So many calls are counted at once, behind one that isn't.
const TIMES: u64 = 4;

/// Whose a call is, if it is no peer's.
const OURS_NAME: &str = "ours";

mod callgrind {
    use std::ffi::CStr;

    /// Asks valgrind for something; elsewhere nothing happens.
    #[cfg(target_arch = "x86_64")]
    fn request(code: usize, text: *const i8) {
        let words = [code, text as usize, 0, 0, 0, 0];
        // SAFETY: the rotations come to a whole turn, and the exchange changes nothing. Valgrind reads the words.
        unsafe {
            std::arch::asm!(
                "rol rdi, 3", "rol rdi, 13", "rol rdi, 61", "rol rdi, 51", "xchg rbx, rbx",
                in("rax") words.as_ptr(), inout("rdx") 0usize => _,
            );
        }
    }

    #[cfg(not(target_arch = "x86_64"))]
    fn request(_: usize, _: *const i8) {
        panic!("the requests are x86-64's");
    }

    const BASE: usize = (b'C' as usize) << 24 | (b'T' as usize) << 16;

    /// Begins to count from nothing.
    pub fn zero() {
        request(BASE + 1, std::ptr::null());
    }

    /// Writes what was counted, by a name.
    pub fn dump(name: &CStr) {
        request(BASE + 3, name.as_ptr().cast());
    }
}

/// Counts some work, and gives it a name.
pub fn count(name: &str, mut work: impl FnMut()) {
    let name = std::ffi::CString::new(name).expect("a name without zeros");
    work();
    callgrind::zero();
    for _ in 0..TIMES {
        work();
    }
    callgrind::dump(&name);
}

type IntoBuffer = fn(&[u8], &mut [u8]) -> Option<usize>;
type InPlace = fn(&mut [u8]) -> Option<usize>;
type Taking = fn(&[u8], usize) -> Found;

/// What takes bytes and makes others: a call, whose it is, and the function.
const ENCODERS: &[(&str, &str, IntoBuffer)] = &[
    ("try_encode", OURS_NAME, |s, d| OURS.try_encode(s, d)),
    ("push", OURS_NAME, |s, d| OURS.push(s, d)),
    ("encode", "bytes", |s, d| Some(bytes::encode(s, d))),
    ("encode", "runs", |s, d| Some(runs::encode(s, d))),
    ("encode", "16", |s, d| Some(wide::encode(s, d))),
    ("encode", "vectors", |s, d| Some(vectors::encode(s, d))),
];
const DECODERS: &[(&str, &str, IntoBuffer)] = &[
    ("decode", OURS_NAME, |s, d| OURS.decode(s, d)),
    ("decode", "bytes", bytes::decode),
    ("decode", "runs", runs::decode),
    ("decode", "16", wide::decode),
    ("decode", "windows", windows::decode),
    ("decode", "vectors", vectors::decode),
];
const IN_PLACE: &[(&str, &str, InPlace)] = &[
    ("decode_in_place", OURS_NAME, |b| OURS.decode_in_place(b)),
    ("decode_in_place", "bytes", bytes::decode_in_place),
    ("decode_in_place", "runs", runs::decode_in_place),
    ("decode_in_place", "windows", windows::decode_in_place),
    ("decode_in_place", "vectors", vectors::decode_in_place),
];
/// Our calls of frames for a sentinel, by the sentinel.
const OTHER: &[(&str, &str, IntoBuffer)] = &[
    ("push_for", "zero", |s, d| OURS.push_for(s, d, 0)),
    ("push_for", "another", |s, d| OURS.push_for(s, d, 10)),
    ("decode_for", "zero", |s, d| OURS.decode_for(s, d, 0)),
    ("decode_for", "another", |s, d| OURS.decode_for(s, d, 10)),
];
const OTHER_IN_PLACE: [(&str, &str, InPlace); 2] = [
    ("in_place_for", "zero", |b| OURS.decode_in_place_for(b, 0)),
    ("in_place_for", "another", |b| OURS.decode_in_place_for(b, 10)),
];
/// What makes a frame where the message stands, and what counts bytes.
type Within = fn(&mut [u8], usize) -> usize;
type Counting = fn(&[u8]) -> usize;
const STANDING: &[(&str, &str, Within)] = &[
    ("encode_in_place", OURS_NAME, |b, n| OURS.encode_in_place(b, n)),
    ("encode_in_place", "bytes", bytes::encode_in_place),
    ("encode_in_place", "runs", runs::encode_in_place),
    ("encode_in_place", "vectors", vectors::encode_in_place),
];
const COUNTERS: &[(&str, &str, Counting)] = &[
    ("encoded_length", OURS_NAME, |s| OURS.encoded_length(s)),
    ("encoded_length", "bytes", bytes::encoded_length),
    ("encoded_length", "runs", runs::encoded_length),
    ("encoded_length", "vectors", vectors::encoded_length),
    ("before_sentinel", OURS_NAME, |s| OURS.before_zero(s)),
    ("before_sentinel", "bytes", bytes::before_zero),
    ("before_sentinel", "runs", runs::before_zero),
    ("before_sentinel", "vectors", vectors::before_zero),
];
/// How long a message is that may stand where its frame is to be.
const STANDING_LENGTHS: [usize; 4] = [4, 16, 64, 200];

const STREAMS: &[(&str, &str, Taking)] = &[
    ("push", OURS_NAME, |s, n| OURS.messages(s, n)),
    ("push", "bytes", pieces::messages_by_bytes),
    ("push", "runs", pieces::messages_by_runs),
    ("push", "vectors", pieces::messages_by_vectors),
    ("decoder's feed", OURS_NAME, |s, _| OURS.fed(s)),
    ("decoder's feed", "bytes", pieces::messages_by_bytes),
    ("decoder's feed", "runs", pieces::messages_by_runs),
    ("decoder's feed", "vectors", pieces::messages_by_vectors),
    ("feed", OURS_NAME, |s, n| OURS.records(s, n)),
    ("feed", "accumulator", pieces::records_by_accumulator),
    ("feed", "runs", pieces::records_by_runs),
    ("feed", "vectors", pieces::records_by_vectors),
];

/// Our way of taking a stream.
fn ours_of(call: &str) -> Taking {
    STREAMS.iter().find(|way| (way.0, way.1) == (call, OURS_NAME)).expect("our way").2
}

/// Whether a call is a peer's.
fn is_peer(whose: &str) -> bool {
    whose != OURS_NAME
}

/// The name of a count.
fn named(call: &str, whose: &str, len: usize, kind: &str) -> String {
    format!("{call}/{whose}/{len}/{kind}")
}

/// A function that is called as the counted ones are.
#[inline(never)]
fn nothing(source: &[u8], dest: &mut [u8]) -> Option<usize> {
    black_box((source.len(), dest.len()));
    None
}

fn count_into_buffer(name: &str, call: IntoBuffer, source: &[u8], room: usize) {
    let mut dest = vec![0; room];
    let call = black_box(call);
    count(name, || {
        black_box(call(black_box(source), black_box(&mut dest)));
    });
}

fn count_in_place(name: &str, call: InPlace, source: &[u8]) {
    let mut buf = source.to_vec();
    let call = black_box(call);
    count(name, || {
        buf.copy_from_slice(black_box(source));
        black_box(call(black_box(&mut buf)));
    });
}

fn count_bytes(name: &str, counting: Counting, bytes: &[u8]) {
    let counting = black_box(counting);
    count(name, || {
        black_box(counting(black_box(bytes)));
    });
}

/// Frames that are made where a message stands: it is copied anew before each call.
fn count_standing(source: &[u8], kind: &str) {
    let len = source.len();
    let mut message = vec![0];
    message.extend_from_slice(source);
    // ours takes an array
    message.resize(255, 0);
    let mut frames = Vec::new();
    let nothing: Within = |buf, n| black_box(buf.len() + n);
    for (call, whose, within) in STANDING.iter().copied().chain([("nothing", "standing", nothing)]) {
        let mut buf = message.clone();
        let within = black_box(within);
        count(&named(call, whose, len, kind), || {
            buf.copy_from_slice(black_box(&message));
            black_box(within(black_box(&mut buf), black_box(len)));
        });
        buf.truncate(len + 1);
        frames.push(buf);
    }
    frames.pop();
    assert!(frames.iter().all(|frame| *frame == frames[0]), "frames where they stand");
}

fn count_messages(len: usize, kind: &str) {
    let source = message(kind, len);
    let mut frame = vec![0; room(len) + 1];
    let end = runs::encode(&source, &mut frame);
    let frame = &frame[..=end];
    count_into_buffer(&named("nothing", "into", len, kind), nothing, &source, room(len));
    count_in_place(&named("nothing", "within", len, kind), |_| None, frame);
    for (call, whose, encode) in ENCODERS.iter().copied() {
        count_into_buffer(&named(call, whose, len, kind), encode, &source, room(len));
    }
    for (call, whose, decode) in DECODERS.iter().copied() {
        count_into_buffer(&named(call, whose, len, kind), decode, frame, frame.len());
    }
    for (call, whose, decode) in IN_PLACE.iter().copied() {
        count_in_place(&named(call, whose, len, kind), decode, frame);
    }
    if STANDING_LENGTHS.contains(&len) {
        count_standing(&source, kind);
    }
    let answers = |call: &str, count: Counting, bytes: &[u8]| {
        let all = COUNTERS.iter().filter(|way| way.0 == call);
        assert!(all.map(|way| way.2(bytes)).all(|n| n == count(bytes)), "{call}");
    };
    for (call, whose, counting) in COUNTERS.iter().copied() {
        let bytes = if call == "encoded_length" { &source[..] } else { frame };
        answers(call, counting, bytes);
        count_bytes(&named(call, whose, len, kind), counting, bytes);
    }
    count_bytes(&named("nothing", "counting", len, kind), |bytes| black_box(bytes.len()), &source);
    let other: Vec<u8> = frame.iter().map(|byte| byte ^ 10).collect();
    let framed = |whose| if whose == "another" { &other } else { frame };
    for (call, whose, code) in OTHER.iter().copied() {
        let from = if call == "push_for" { &source } else { framed(whose) };
        count_into_buffer(&named(call, whose, len, kind), code, from, room(len));
    }
    for (call, whose, decode) in OTHER_IN_PLACE {
        count_in_place(&named(call, whose, len, kind), decode, framed(whose));
    }
}

type Writing = fn(&Record<'_>, &mut [u8]) -> Option<usize>;
type Reading = fn(&[u8]) -> Option<Parts>;

fn read_by(ours: &Calls, bytes: &[u8]) -> Option<Parts> {
    let mut parts = Parts::default();
    ours.read(bytes, &mut parts).then_some(parts)
}

const WRITERS: &[(&str, Writing)] = &[
    (OURS_NAME, |r, room| OURS.write(r, room)),
    ("straight", by_hand::write),
    ("crate", by_hand::crate_like::write),
    ("tight", tight::write),
];
const READERS: &[(&str, Reading)] = &[
    (OURS_NAME, |bytes| read_by(&OURS, bytes)),
    ("straight", by_hand::read),
    ("crate", by_hand::crate_like::read),
    ("tight", tight::read),
];

fn count_record() {
    let list = data::list(&mut data::Numbers(6), 32);
    let record = record(&list);
    let mut spelling = [0; 256];
    let len = by_hand::write(&record, &mut spelling).expect("there is room");
    for (whose, write) in WRITERS.iter().copied() {
        let mut room = [0; 256];
        let write = black_box(write);
        count(&named("to_slice", whose, 0, ""), || {
            black_box(write(black_box(&record), black_box(&mut room)));
        });
    }
    for (whose, read) in READERS.iter().copied() {
        let read = black_box(read);
        count(&named("from_bytes", whose, 0, ""), || {
            black_box(read(black_box(&spelling[..len])));
        });
    }
}

/// What is counted, where valgrind looks on.
pub fn count_all() {
    for len in LENGTHS {
        for kind in KINDS {
            count_messages(len, kind);
        }
    }
    let stream = data::stream(STREAM);
    for piece in PIECES {
        for (call, whose, take) in STREAMS.iter().copied() {
            assert_eq!(take(&stream, piece), ours_of(call)(&stream, piece), "{call}, {whose}, chunks of {piece}");
            count(&named(call, whose, piece, "stream"), || {
                black_box(take(black_box(&stream), black_box(piece)));
            });
        }
    }
    count_record();
    remote::count_calls();
    layers::count_layers();
}

/// Runs this program under valgrind, which writes a file for each count, and reads what each says for one call.
fn counted(folder: &Path) -> BTreeMap<String, f64> {
    let _ = fs::remove_dir_all(folder);
    fs::create_dir_all(folder).expect("a folder");
    let own = env::current_exe().expect("this program's path");
    let files = format!("--callgrind-out-file={}", folder.join("count").display());
    let mut valgrind = Command::new("valgrind");
    let run = valgrind.args(["-q", "--tool=callgrind", "--dump-instr=yes", "--compress-strings=no", &files]).arg(own).arg("counted");
    let output = run.output().expect("valgrind runs");
    assert!(output.status.success(), "{}", String::from_utf8_lossy(&output.stderr));
    let mut counts = BTreeMap::new();
    for file in fs::read_dir(folder).expect("the folder") {
        let text = fs::read_to_string(file.expect("a file").path()).expect("a text");
        let after = |start: &str| text.lines().find_map(|line| line.strip_prefix(start).map(str::trim));
        if let (Some(name), Some(total)) = (after("desc: Trigger: Client Request:"), after("summary:")) {
            let total: f64 = total.parse().expect("a number");
            counts.insert(name.to_owned(), total / TIMES as f64);
        }
    }
    counts
}

/// The counts, each without what is around a call.
pub struct Counts(BTreeMap<String, f64>);

impl Counts {
    pub fn of(&self, call: &str, whose: &str, len: usize, kind: &str) -> f64 {
        self.0[&named(call, whose, len, kind)]
    }

    /// Prints a call on a message: ours and the peers', without what is around a call.
    fn print_cell(&self, report: &mut Report, grid: &Grid, len: usize, kind: usize) {
        let (of, kind) = (goal(grid.call, len, kind), KINDS[kind]);
        let around = self.of("nothing", grid.around, len, kind);
        let figure = |&(call, whose): &(&str, &str)| self.of(call, whose, len, kind) - around;
        let peers: Vec<_> = grid.peers.iter().map(|peer| (peer.1, figure(peer))).collect();
        let what = format!("`{}`, {}, {kind}", grid.call, size(len));
        report.line(&what, "call", figure(&grid.ours), &peers, Some(of));
    }
}

/// The rows of a call: what it is counted as, what is around it, and its peers.
struct Grid {
    call: &'static str,
    ours: (&'static str, &'static str),
    around: &'static str,
    peers: Vec<(&'static str, &'static str)>,
    lengths: &'static [usize],
}

/// The peers among ways.
fn peers_of<F>(ways: &[(&'static str, &'static str, F)]) -> Vec<(&'static str, &'static str)> {
    ways.iter().filter(|way| is_peer(way.1)).map(|way| (way.0, way.1)).collect()
}

/// The rows of calls on messages.
fn grids() -> Vec<Grid> {
    let grid = |call, around, peers| Grid { call, ours: (call, OURS_NAME), around, peers, lengths: &LENGTHS };
    let encoders = peers_of(ENCODERS);
    let decoders = peers_of(DECODERS);
    let within = peers_of(IN_PLACE);
    let standing = peers_of(STANDING);
    let counters = |call: &str| {
        let peers = peers_of(COUNTERS).into_iter();
        peers.filter(|way| way.0 == call).collect()
    };
    vec![
        grid("try_encode", "into", encoders.clone()),
        grid("push", "into", encoders),
        grid("decode", "into", decoders.clone()),
        grid("decode_in_place", "within", within),
        Grid { ours: ("decode_for", "zero"), ..grid("decode_with_sentinel", "into", decoders) },
        Grid { lengths: &STANDING_LENGTHS, ..grid("encode_in_place", "standing", standing) },
        grid("encoded_length", "counting", counters("encoded_length")),
        grid("before_sentinel", "counting", counters("before_sentinel")),
    ]
}

/// Frames for another sentinel, over those for zero.
fn print_sentinels(counts: &Counts, report: &mut Report) {
    report.begin("another sentinel");
    for (call, around) in [("push_for", "into"), ("decode_for", "into"), ("in_place_for", "within")] {
        for len in LENGTHS {
            for kind in [KINDS[0], KINDS[2]] {
                let of = |whose| counts.of(call, whose, len, kind) - counts.of("nothing", around, len, kind);
                let what = format!("another sentinel, `{call}`, {}, {kind}", size(len));
                report.line(&what, "call", of("another"), &[("zero", of("zero"))], Some(ANOTHER));
            }
        }
    }
}

fn print_streams(counts: &Counts, report: &mut Report, bytes: usize) {
    report.begin("streams");
    let mut print = |call: &str, what: &str, piece: usize, goal| {
        let what = format!("{what}, chunks of {piece}");
        let each = |whose: &str| counts.of(call, whose, piece, "stream") / bytes as f64;
        let peers = STREAMS.iter().filter(|way| way.0 == call && is_peer(way.1));
        let peers: Vec<_> = peers.map(|way| (way.1, each(way.1))).collect();
        report.line(&what, "byte", each(OURS_NAME), &peers, Some(goal));
    };
    print("decoder's feed", "decoder's `feed`", 1, FED);
    for piece in PIECES {
        print("push", "decoder's `push`", piece, pushing(piece));
    }
    for piece in PIECES {
        print("feed", "accumulator's `feed`", piece, feeding(piece));
    }
}

fn print_record(counts: &Counts, report: &mut Report) {
    report.begin("a record");
    for (call, goal) in [("to_slice", WRITING), ("from_bytes", READING)] {
        let of = |whose| counts.of(call, whose, 0, "");
        let peers = ["straight", "crate", "tight"].map(|whose| (whose, of(whose)));
        report.line(&format!("a record's `{call}`"), "call", of(OURS_NAME), &peers, Some(goal));
    }
}

/// Counts, and prints what each call takes. What valgrind wrote stays in the folder.
pub fn print(folder: &Path) {
    let counts = Counts(counted(folder));
    let mut report = Report::new();
    for grid in grids() {
        report.begin(grid.call);
        for &len in grid.lengths {
            (0..KINDS.len()).for_each(|kind| counts.print_cell(&mut report, &grid, len, kind));
        }
    }
    print_sentinels(&counts, &mut report);
    print_streams(&counts, &mut report, data::stream(STREAM).len());
    print_record(&counts, &mut report);
    remote::print_calls(&counts, &mut report);
    layers::print_layers(&counts, &mut report);
}
