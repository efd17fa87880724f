//! What stands above frames and records: records in frames, sealed ones, tables of types, sending, receiving and listening, the codec,
//! servers that listen, and logs. Counted and not timed.
use crate::calls::{answered, of_record, Answer, Found, Parts};
use crate::cases::{FED, READING as TAKING, STREAMED, WRITING};
use crate::counts::{count, Counts};
use crate::data::{self, record, Record};
use crate::frames::{bytes, runs, vectors};
use crate::peers::{codec, framed, log, records as by_hand, remote, sealed_calls, streams, sums, tables, tight};
use crate::remote::Counted;
use crate::table::{size, Goal, Report};
use std::hint::black_box;

type Write = unsafe extern "C" fn(u32, u64, *const u8, usize, bool, u16, *const u16, usize, *mut u8, usize) -> Answer;
type WriteBy = unsafe extern "C" fn(u32, u32, u64, *const u8, usize, bool, u16, *const u16, usize) -> Answer;
type ReadFrame = unsafe extern "C" fn(*mut u8, usize, *mut Parts) -> bool;
type Read = unsafe extern "C" fn(*const u8, usize, *mut Parts) -> bool;
type IntoVec = unsafe extern "C" fn(*const u8, usize) -> Answer;
type Made = unsafe extern "C" fn(*const u8, usize, u32, *mut u8, usize, *mut Counted);
type Taken = unsafe extern "C" fn(*const u8, usize, usize, *mut Found);
/// What counts all that some bytes hold.
type Count = unsafe extern "C" fn(*const u8, usize, *mut Found);
type Served = unsafe extern "C" fn(*const u8, usize, usize, *mut u8, usize, *mut Counted);

/// The functions of one build of the library.
#[derive(Clone, Copy)]
struct Layers {
    encode_for: unsafe extern "C" fn(*const u8, usize, *mut u8, usize, u8) -> usize,
    encode_vec: IntoVec,
    decode_vec: IntoVec,
    state_push: unsafe extern "C" fn(*const u8, usize, *mut u8, usize) -> usize,
    state_feed: Count,
    write_frame: Write,
    read_frame: ReadFrame,
    size: unsafe extern "C" fn(u32, u64, *const u8, usize, bool, u16, *const u16, usize) -> Answer,
    allocvec: unsafe extern "C" fn(u32, u64, *const u8, usize, bool, u16, *const u16, usize) -> Answer,
    frame_into: Write,
    write_by: WriteBy,
    write_frame_for: Write,
    read_frame_for: ReadFrame,
    take: Read,
    read_owned: Read,
    read_io: Read,
    sealed_write: Write,
    sealed_read: ReadFrame,
    sealed_sum: unsafe extern "C" fn(*const u8, usize) -> u32,
    table: unsafe extern "C" fn() -> usize,
    schemas_read: unsafe extern "C" fn(*const u8, usize, u32, *mut Found),
    schemas_write: unsafe extern "C" fn(*const u8, usize, u32, *mut u8, usize) -> Answer,
    send: Made,
    send_for: Made,
    send_each: Made,
    receive_each: Taken,
    listen: Taken,
    listen_until: Taken,
    push: Taken,
    push_strict: Taken,
    push_owned: Taken,
    push_ref: Taken,
    push_for: Taken,
    receive: Taken,
    receive_strict: Taken,
    receive_owned: Taken,
    receive_owned_strict: Taken,
    gather: Taken,
    read_in_place: unsafe extern "C" fn(*mut u8, usize, *mut Found),
    decode: Taken,
    decode_strict: Taken,
    decode_owned: Taken,
    encode: Made,
    serve: Served,
    serve_sealed: Served,
    append: Made,
    frame_record: Made,
    open: Count,
    read_all: Count,
}

macro_rules! layers {
    ($module:ident, $prefix:literal) => {
        mod $module {
            use super::*;

            extern "C" {
                #[link_name = concat!($prefix, "cobs_c_encode_with_sentinel")]
                fn encode_for(s: *const u8, n: usize, d: *mut u8, m: usize, sentinel: u8) -> usize;
                #[link_name = concat!($prefix, "cobs_c_encode_vec")]
                fn encode_vec(s: *const u8, n: usize) -> Answer;
                #[link_name = concat!($prefix, "cobs_c_decode_vec")]
                fn decode_vec(s: *const u8, n: usize) -> Answer;
                #[link_name = concat!($prefix, "cobs_c_state_push")]
                fn state_push(s: *const u8, n: usize, d: *mut u8, m: usize) -> usize;
                #[link_name = concat!($prefix, "cobs_c_state_feed")]
                fn state_feed(s: *const u8, n: usize, found: *mut Found);
                #[link_name = concat!($prefix, "postcard_c_write_frame")]
                fn write_frame(
                    number: u32,
                    big: u64,
                    text: *const u8,
                    text_len: usize,
                    has: bool,
                    perhaps: u16,
                    list: *const u16,
                    list_len: usize,
                    room: *mut u8,
                    room_len: usize,
                ) -> Answer;
                #[link_name = concat!($prefix, "postcard_c_size")]
                fn size(
                    number: u32,
                    big: u64,
                    text: *const u8,
                    text_len: usize,
                    has: bool,
                    perhaps: u16,
                    list: *const u16,
                    list_len: usize,
                ) -> Answer;
                #[link_name = concat!($prefix, "postcard_c_allocvec")]
                fn allocvec(
                    number: u32,
                    big: u64,
                    text: *const u8,
                    text_len: usize,
                    has: bool,
                    perhaps: u16,
                    list: *const u16,
                    list_len: usize,
                ) -> Answer;
                #[link_name = concat!($prefix, "link_c_frame_into")]
                fn frame_into(
                    number: u32,
                    big: u64,
                    text: *const u8,
                    text_len: usize,
                    has: bool,
                    perhaps: u16,
                    list: *const u16,
                    list_len: usize,
                    room: *mut u8,
                    room_len: usize,
                ) -> Answer;
                #[link_name = concat!($prefix, "postcard_c_write_by")]
                fn write_by(
                    way: u32,
                    number: u32,
                    big: u64,
                    text: *const u8,
                    text_len: usize,
                    has: bool,
                    perhaps: u16,
                    list: *const u16,
                    list_len: usize,
                ) -> Answer;
                #[link_name = concat!($prefix, "postcard_c_write_frame_for")]
                fn write_frame_for(
                    number: u32,
                    big: u64,
                    text: *const u8,
                    text_len: usize,
                    has: bool,
                    perhaps: u16,
                    list: *const u16,
                    list_len: usize,
                    room: *mut u8,
                    room_len: usize,
                ) -> Answer;
                #[link_name = concat!($prefix, "postcard_c_read_frame")]
                fn read_frame(frame: *mut u8, n: usize, parts: *mut Parts) -> bool;
                #[link_name = concat!($prefix, "postcard_c_read_frame_for")]
                fn read_frame_for(frame: *mut u8, n: usize, parts: *mut Parts) -> bool;
                #[link_name = concat!($prefix, "postcard_c_take")]
                fn take(bytes: *const u8, n: usize, parts: *mut Parts) -> bool;
                #[link_name = concat!($prefix, "postcard_c_read_owned")]
                fn read_owned(bytes: *const u8, n: usize, parts: *mut Parts) -> bool;
                #[link_name = concat!($prefix, "postcard_c_read_io")]
                fn read_io(bytes: *const u8, n: usize, parts: *mut Parts) -> bool;
                #[link_name = concat!($prefix, "sealed_c_write")]
                fn sealed_write(
                    number: u32,
                    big: u64,
                    text: *const u8,
                    text_len: usize,
                    has: bool,
                    perhaps: u16,
                    list: *const u16,
                    list_len: usize,
                    room: *mut u8,
                    room_len: usize,
                ) -> Answer;
                #[link_name = concat!($prefix, "sealed_c_read")]
                fn sealed_read(frame: *mut u8, n: usize, parts: *mut Parts) -> bool;
                #[link_name = concat!($prefix, "sealed_c_sum")]
                fn sealed_sum(bytes: *const u8, n: usize) -> u32;
                #[link_name = concat!($prefix, "schemas_c_table")]
                fn table() -> usize;
                #[link_name = concat!($prefix, "schemas_c_read")]
                fn schemas_read(s: *const u8, n: usize, times: u32, found: *mut Found);
                #[link_name = concat!($prefix, "schemas_c_write")]
                fn schemas_write(s: *const u8, n: usize, times: u32, room: *mut u8, m: usize) -> Answer;
                #[link_name = concat!($prefix, "link_c_send")]
                fn send(t: *const u8, n: usize, count: u32, room: *mut u8, m: usize, counted: *mut Counted);
                #[link_name = concat!($prefix, "link_c_send_for")]
                fn send_for(t: *const u8, n: usize, count: u32, room: *mut u8, m: usize, counted: *mut Counted);
                #[link_name = concat!($prefix, "link_c_send_each")]
                fn send_each(t: *const u8, n: usize, count: u32, room: *mut u8, m: usize, counted: *mut Counted);
                #[link_name = concat!($prefix, "link_c_receive_each")]
                fn receive_each(s: *const u8, n: usize, each: usize, found: *mut Found);
                #[link_name = concat!($prefix, "link_c_listen")]
                fn listen(s: *const u8, n: usize, each: usize, found: *mut Found);
                #[link_name = concat!($prefix, "link_c_push")]
                fn push(s: *const u8, n: usize, piece: usize, found: *mut Found);
                #[link_name = concat!($prefix, "link_c_push_strict")]
                fn push_strict(s: *const u8, n: usize, piece: usize, found: *mut Found);
                #[link_name = concat!($prefix, "link_c_push_owned")]
                fn push_owned(s: *const u8, n: usize, piece: usize, found: *mut Found);
                #[link_name = concat!($prefix, "link_c_receive")]
                fn receive(s: *const u8, n: usize, piece: usize, found: *mut Found);
                #[link_name = concat!($prefix, "link_c_listen_until")]
                fn listen_until(s: *const u8, n: usize, piece: usize, found: *mut Found);
                #[link_name = concat!($prefix, "link_c_push_ref")]
                fn push_ref(s: *const u8, n: usize, piece: usize, found: *mut Found);
                #[link_name = concat!($prefix, "link_c_push_for")]
                fn push_for(s: *const u8, n: usize, piece: usize, found: *mut Found);
                #[link_name = concat!($prefix, "link_c_receive_strict")]
                fn receive_strict(s: *const u8, n: usize, piece: usize, found: *mut Found);
                #[link_name = concat!($prefix, "link_c_receive_owned")]
                fn receive_owned(s: *const u8, n: usize, piece: usize, found: *mut Found);
                #[link_name = concat!($prefix, "link_c_receive_owned_strict")]
                fn receive_owned_strict(s: *const u8, n: usize, piece: usize, found: *mut Found);
                #[link_name = concat!($prefix, "link_c_gather")]
                fn gather(s: *const u8, n: usize, piece: usize, found: *mut Found);
                #[link_name = concat!($prefix, "link_c_read_in_place")]
                fn read_in_place(s: *mut u8, n: usize, found: *mut Found);
                #[link_name = concat!($prefix, "codec_c_decode")]
                fn decode(s: *const u8, n: usize, piece: usize, found: *mut Found);
                #[link_name = concat!($prefix, "codec_c_decode_strict")]
                fn decode_strict(s: *const u8, n: usize, piece: usize, found: *mut Found);
                #[link_name = concat!($prefix, "codec_c_decode_owned")]
                fn decode_owned(s: *const u8, n: usize, piece: usize, found: *mut Found);
                #[link_name = concat!($prefix, "codec_c_encode")]
                fn encode(t: *const u8, n: usize, count: u32, room: *mut u8, m: usize, counted: *mut Counted);
                #[link_name = concat!($prefix, "calls_c_listen")]
                fn serve(r: *const u8, n: usize, each: usize, room: *mut u8, m: usize, counted: *mut Counted);
                #[link_name = concat!($prefix, "calls_c_listen_sealed")]
                fn serve_sealed(r: *const u8, n: usize, each: usize, room: *mut u8, m: usize, counted: *mut Counted);
                #[link_name = concat!($prefix, "journal_c_append")]
                fn append(t: *const u8, n: usize, count: u32, room: *mut u8, m: usize, counted: *mut Counted);
                #[link_name = concat!($prefix, "journal_c_frame")]
                fn frame_record(t: *const u8, n: usize, count: u32, room: *mut u8, m: usize, counted: *mut Counted);
                #[link_name = concat!($prefix, "journal_c_open")]
                fn open(l: *const u8, n: usize, found: *mut Found);
                #[link_name = concat!($prefix, "journal_c_read_all")]
                fn read_all(l: *const u8, n: usize, found: *mut Found);
            }

            pub const LAYERS: Layers = Layers {
                encode_for,
                encode_vec,
                decode_vec,
                state_push,
                state_feed,
                write_frame,
                read_frame,
                size,
                allocvec,
                frame_into,
                write_by,
                write_frame_for,
                read_frame_for,
                take,
                read_owned,
                read_io,
                sealed_write,
                sealed_read,
                sealed_sum,
                table,
                schemas_read,
                schemas_write,
                send,
                send_for,
                send_each,
                receive_each,
                listen,
                listen_until,
                push,
                push_strict,
                push_owned,
                push_ref,
                push_for,
                receive,
                receive_strict,
                receive_owned,
                receive_owned_strict,
                gather,
                read_in_place,
                decode,
                decode_strict,
                decode_owned,
                encode,
                serve,
                serve_sealed,
                append,
                frame_record,
                open,
                read_all,
            };
        }
    };
}

layers!(now, "");

const OURS: Layers = now::LAYERS;

fn made(call: Made, text: &[u8], count: u32, room: &mut [u8]) -> Counted {
    let mut counted = Counted::default();
    // SAFETY: two slices that don't overlap, each by its pointer and its length, and a struct of C's layout.
    unsafe { call(text.as_ptr(), text.len(), count, room.as_mut_ptr(), room.len(), &mut counted) };
    counted
}

fn taken(call: Taken, stream: &[u8], piece: usize) -> Found {
    let mut found = Found::default();
    // SAFETY: a slice by its pointer and its length, and a struct of C's layout.
    unsafe { call(stream.as_ptr(), stream.len(), piece, &mut found) };
    found
}

fn served(call: Served, requests: &[u8], each: usize, room: &mut [u8]) -> Counted {
    let (n, m, mut counted) = (requests.len(), room.len(), Counted::default());
    // SAFETY: two slices that don't overlap, each by its pointer and its length, and a struct of C's layout.
    unsafe { call(requests.as_ptr(), n, each, room.as_mut_ptr(), m, &mut counted) };
    counted
}

fn written(call: Write, record: &Record<'_>, room: &mut [u8]) -> Option<usize> {
    of_record!(call, [], record, [room.as_mut_ptr(), room.len()])
}

fn read_frame(call: ReadFrame, frame: &mut [u8]) -> Option<Parts> {
    let mut parts = Parts::default();
    // SAFETY: a slice by its pointer and its length, and a struct of C's layout.
    unsafe { call(frame.as_mut_ptr(), frame.len(), &mut parts) }.then_some(parts)
}

fn read(call: Read, bytes: &[u8]) -> Option<Parts> {
    let mut parts = Parts::default();
    // SAFETY: a slice by its pointer and its length, and a struct of C's layout.
    unsafe { call(bytes.as_ptr(), bytes.len(), &mut parts) }.then_some(parts)
}

fn counted(call: Count, bytes: &[u8]) -> Found {
    let mut found = Found::default();
    // SAFETY: a slice by its pointer and its length, and a struct of C's layout.
    unsafe { call(bytes.as_ptr(), bytes.len(), &mut found) };
    found
}

impl Layers {
    /// How long the record is written, or what is made of it is.
    fn length(&self, of_vec: bool, record: &Record<'_>) -> Option<usize> {
        of_record!(if of_vec { self.allocvec } else { self.size }, [], record, [])
    }

    /// How long the record is that is written by one of the calls that a number names.
    fn write_by(&self, way: u32, record: &Record<'_>) -> Option<usize> {
        of_record!(self.write_by, [way], record, [])
    }

    fn read_in_place(&self, stream: &mut [u8]) -> Found {
        let mut found = Found::default();
        // SAFETY: a slice by its pointer and its length, and a struct of C's layout.
        unsafe { (self.read_in_place)(stream.as_mut_ptr(), stream.len(), &mut found) };
        found
    }

    fn sealed_sum(&self, bytes: &[u8]) -> u32 {
        // SAFETY: a slice by its pointer and its length.
        unsafe { (self.sealed_sum)(bytes.as_ptr(), bytes.len()) }
    }

    fn schemas_read(&self, source: &[u8], times: u32) -> Found {
        let mut found = Found::default();
        // SAFETY: a slice by its pointer and its length, and a struct of C's layout.
        unsafe { (self.schemas_read)(source.as_ptr(), source.len(), times, &mut found) };
        found
    }

    fn schemas_write(&self, source: &[u8], times: u32, room: &mut [u8]) -> Option<usize> {
        let (n, m) = (source.len(), room.len());
        // SAFETY: two slices that don't overlap, each by its pointer and its length.
        answered(unsafe { (self.schemas_write)(source.as_ptr(), n, times, room.as_mut_ptr(), m) })
    }

}

/// So many values are made, or read, at once.
const VALUES: u32 = 1000;
/// How long a stream is, at least.
const STREAM: usize = 64 << 10;
const TEXT: &[u8] = b"twenty letters here!";
const FIRST: u64 = 1000;
const CALLS: u16 = 1000;

/// What a way answers, to be compared: what it wrote is compared too.
type Outcome = [u64; 8];

/// A way of a row's work, over a room.
struct Way {
    whose: &'static str,
    work: Box<dyn FnMut(&mut [u8]) -> Outcome>,
}

fn of(numbers: &[u64]) -> Outcome {
    let mut outcome = [0; 8];
    outcome[..numbers.len()].copy_from_slice(numbers);
    outcome
}

fn of_found(found: Found) -> Outcome {
    of(&[found.values, found.refused, found.sum])
}

fn of_counted(counted: Counted) -> Outcome {
    of(&[counted.calls, counted.sum, counted.written as u64])
}

fn of_length(length: Option<usize>) -> Outcome {
    of(&[length.is_some().into(), length.unwrap_or(0) as u64])
}

fn of_parts(parts: Option<Parts>) -> Outcome {
    let Some(parts) = parts else {
        return of(&[]);
    };
    let Parts { number, big, text_len, has, perhaps, list_len, sum } = parts;
    of(&[1, number.into(), big, text_len as u64, has.into(), perhaps.into(), list_len as u64, sum])
}

/// A row: the group that it is in, a call, what is aimed at, what a figure is for and how many of those the work has, how much room the
/// work is given where it is counted and where it is compared, whether ours write for another sentinel than the peers do, and the
/// ways: ours, perhaps ours for wider vectors, and the peers.
struct Row {
    group: &'static str,
    call: String,
    goal: Goal,
    each: &'static str,
    times: f64,
    room: usize,
    most: usize,
    masked: bool,
    ways: Vec<Way>,
}

/// What is aimed at: 1.2 for what frames, copies or sums, also with a record in it, 1.3 where a value is read from a stream, a log or by a
/// table, 1.1 for a record alone, and for a server that listens what a remote call has.
const FRAMING: Goal = Goal::new(1.2, 1.2);
const READING: Goal = Goal::new(STREAMED, 1.3);
const SERVING: Goal = Goal::new(1.1, 1.1);
const RECORD: Goal = Goal::new(1.1, 1.2);
const RECORD_READ: Goal = Goal::new(1.1, 1.3);
const FRAME_READ: Goal = Goal::new(1.2, 1.3);
/// The sentinel of the rows that aren't for zero.
const OTHER: u8 = 10;

/// Our way of a row.
fn ours(work: impl Fn(Layers) -> Box<dyn FnMut(&mut [u8]) -> Outcome>) -> Vec<Way> {
    vec![Way { whose: "ours", work: work(OURS) }]
}

fn peer(whose: &'static str, work: impl FnMut(&mut [u8]) -> Outcome + 'static) -> Way {
    Way { whose, work: Box::new(work) }
}

/// A row of one work with one room.
fn row_of(call: &str, goal: Goal, each: &'static str, times: f64, room: usize, ways: Vec<Way>) -> Row {
    Row { group: "", call: call.to_owned(), goal, each, times, room, most: room, masked: false, ways }
}

/// The length of what a call makes of bytes in a vector.
fn in_vec(call: IntoVec, source: &[u8]) -> Option<usize> {
    // SAFETY: a slice by its pointer and its length.
    answered(unsafe { call(source.as_ptr(), source.len()) })
}

type IntoRoom = fn(&[u8], &mut [u8]) -> usize;
type IntoRoomOf = fn(&Layers, &[u8], &mut [u8]) -> usize;
type OfBytes = fn(&[u8]) -> Option<usize>;

/// A row of a message whose frame is written to the front of the room.
fn encoding(call: String, goal: Goal, source: &'static [u8], ours_of: IntoRoomOf, peers: &[(&'static str, IntoRoom)]) -> Row {
    let mut ways = ours(|build| Box::new(move |room| of_length(Some(ours_of(&build, black_box(source), room)))));
    for &(whose, by_hand) in peers {
        ways.push(peer(whose, move |room| of_length(Some(black_box(by_hand)(black_box(source), room)))));
    }
    row_of(&call, goal, "call", 1.0, source.len() + source.len().div_ceil(254) + 1, ways)
}

/// A row of bytes that are made others of in a vector.
fn in_vecs(call: String, goal: Goal, source: &'static [u8], ours_of: fn(&Layers) -> IntoVec, peers: &[(&'static str, OfBytes)]) -> Row {
    let mut ways = ours(|build| {
        let call = ours_of(&build);
        Box::new(move |_| of_length(in_vec(call, black_box(source))))
    });
    for &(whose, by_hand) in peers {
        ways.push(peer(whose, move |_| of_length(black_box(by_hand)(black_box(source)))));
    }
    row_of(&call, goal, "call", 1.0, 0, ways)
}

/// A frame in a vector, and a message in one.
fn in_frame(source: &[u8], length: fn(&[u8]) -> usize, encode: IntoRoom) -> Option<usize> {
    let mut frame = vec![0; length(source)];
    let len = encode(source, &mut frame);
    Some(black_box(frame).len().min(len))
}

fn in_message(frame: &[u8], decode: fn(&[u8], &mut [u8]) -> Option<usize>) -> Option<usize> {
    let mut message = vec![0; frame.len()];
    let len = decode(frame, &mut message)?;
    message.truncate(len);
    Some(black_box(message).len())
}

/// The same where any frame has space, whose vector is cut then.
fn in_long_frame(source: &[u8]) -> Option<usize> {
    let mut frame = vec![0; source.len() + source.len().div_ceil(254).max(1)];
    let len = vectors::encode(source, &mut frame);
    frame.truncate(len);
    Some(black_box(frame).len())
}

const ENCODED: [(&str, OfBytes); 2] = [("runs", |s| in_frame(s, runs::encoded_length, runs::encode)), ("vectors", in_long_frame)];
const DECODED: [(&str, OfBytes); 2] = [("runs", |f| in_message(f, runs::decode)), ("vectors", |f| in_message(f, vectors::decode))];

/// The calls of `cobs` that have no table by sizes, on random bytes; the goals are those of the calls beside them.
fn cobs_rows() -> Vec<Row> {
    let mut rows = Vec::new();
    for (len, framing, decoding) in [(200, Goal::new(1.2, 1.3), FRAMING), (64 << 10, Goal::new(1.2, 1.0), FRAMING)] {
        let source: &'static [u8] = data::message("random", len).leak();
        let mut frame = vec![0; runs::encoded_length(source) + 1];
        runs::encode(source, &mut frame);
        let frame: &'static [u8] = frame.leak();
        let of = |call: &str| format!("`{call}`, {}", size(len));
        rows.push(in_vecs(of("encode_vec"), framing, source, |build| build.encode_vec, &ENCODED));
        rows.push(in_vecs(of("decode_vec"), decoding, frame, |build| build.decode_vec, &DECODED));
        let for_another: IntoRoomOf = |build, s, d| {
            // SAFETY: two slices that don't overlap, each by its pointer and its length; the second has room for any frame of the first.
            unsafe { (build.encode_for)(s.as_ptr(), s.len(), d.as_mut_ptr(), d.len(), OTHER) }
        };
        let peers: [(&str, IntoRoom); 2] = [("runs, for zero", runs::encode), ("vectors, for zero", vectors::encode)];
        let row = encoding(of("encode_with_sentinel"), framing, source, for_another, &peers);
        rows.push(Row { masked: true, ..row });
    }
    let source: &'static [u8] = data::message("random", 200).leak();
    let by_state: IntoRoomOf = |build, s, d| {
        // SAFETY: two slices that don't overlap, each by its pointer and its length.
        unsafe { (build.state_push)(s.as_ptr(), s.len(), d.as_mut_ptr(), d.len()) }
    };
    rows.push(encoding("an `EncoderState`, 200".to_owned(), Goal::new(1.2, 1.3), source, by_state, &[("bytes", bytes::encode)]));
    let stream: &'static [u8] = data::stream(STREAM).leak();
    let mut feeding = ours(|build| Box::new(move |_| of_found(counted(build.state_feed, black_box(stream)))));
    let by_bytes: fn(&[u8]) -> Found = streams::told_by_bytes;
    feeding.push(peer("bytes", move |_| of_found(black_box(by_bytes)(black_box(stream)))));
    rows.push(row_of("a `DecoderState`'s `feed`", FED, "byte", stream.len() as f64, 0, feeding));
    rows
}

fn list() -> &'static [u16] {
    data::list(&mut data::Numbers(6), 32).leak()
}

/// The record's spelling.
fn spelling() -> &'static [u8] {
    let mut room = [0; 256];
    let len = by_hand::write(&record(list()), &mut room).expect("there is room");
    room[..len].to_vec().leak()
}

type WriteRecord = fn(&Record<'_>, &mut [u8]) -> Option<usize>;
type ReadRecord = fn(&mut [u8]) -> Option<Parts>;

/// A row of the record that is written.
fn writing(call: &str, ours_of: fn(&Layers) -> Write, peers: &[(&'static str, WriteRecord)]) -> Row {
    let mut ways = ours(|build| {
        let (call, record) = (ours_of(&build), record(list()));
        Box::new(move |room| of_length(written(call, black_box(&record), room)))
    });
    for &(whose, write) in peers {
        let record = record(list());
        ways.push(peer(whose, move |room| of_length(black_box(write)(black_box(&record), room))));
    }
    row_of(call, FRAMING, "record", 1.0, 256, ways)
}

/// Reads a frame that is copied anew each time.
fn in_place(frame: &[u8], mut read: impl FnMut(&mut [u8]) -> Option<Parts> + 'static) -> impl FnMut(&mut [u8]) -> Outcome {
    let frame = frame.to_vec();
    let mut buf = frame.clone();
    move |_: &mut [u8]| {
        buf.copy_from_slice(black_box(&frame));
        of_parts(read(black_box(&mut buf)))
    }
}

/// A row of the record that is read from the frame that a peer writes.
fn reading(call: &str, goal: Goal, write: WriteRecord, ours_of: fn(&Layers) -> ReadFrame, peers: &[(&'static str, ReadRecord)]) -> Row {
    let mut room = [0; 256];
    let len = write(&record(list()), &mut room).expect("there is room");
    let frame = &room[..len];
    let mut ways = ours(|build| {
        let call = ours_of(&build);
        Box::new(in_place(frame, move |frame| read_frame(call, frame)))
    });
    for &(whose, read) in peers {
        ways.push(peer(whose, in_place(frame, move |frame| black_box(read)(frame))));
    }
    row_of(call, goal, "record", 1.0, 0, ways)
}

type LengthOf = fn(&Record<'_>) -> Option<usize>;
type ReadParts = fn(&[u8]) -> Option<Parts>;

/// A row of how long the record is written, or what it is written into is.
fn lengths(call: &str, goal: Goal, ours_of: fn(&Layers, &Record<'_>) -> Option<usize>, peers: &[(&'static str, LengthOf)]) -> Row {
    let mut ways = ours(|build| {
        let record = record(list());
        Box::new(move |_| of_length(ours_of(&build, black_box(&record))))
    });
    for &(whose, by_hand) in peers {
        let record = record(list());
        ways.push(peer(whose, move |_| of_length(black_box(by_hand)(black_box(&record)))));
    }
    row_of(call, goal, "record", 1.0, 0, ways)
}

/// A row of the record that is read from its spelling.
fn spelled(call: &str, goal: Goal, ours_of: fn(&Layers) -> Read, peers: &[(&'static str, ReadParts)]) -> Row {
    let source = spelling();
    let mut ways = ours(|build| {
        let call = ours_of(&build);
        Box::new(move |_| of_parts(read(call, black_box(source))))
    });
    for &(whose, by_hand) in peers {
        ways.push(peer(whose, move |_| of_parts(black_box(by_hand)(black_box(source)))));
    }
    row_of(call, goal, "record", 1.0, 0, ways)
}

/// A row of a frame for another sentinel: the peer reads and writes that for zero.
fn for_another() -> [Row; 2] {
    let mut writing = ours(|build| {
        let record = record(list());
        Box::new(move |room| of_length(written(build.write_frame_for, black_box(&record), room)))
    });
    let record = record(list());
    let mut frame = vec![0; 256];
    let len = framed::write(&record, &mut frame).expect("there is room");
    frame.truncate(len);
    let writes: [(&str, WriteRecord); 2] = [("by hand, for zero", framed::write), ("vectors, for zero", framed::by_vectors::write)];
    for (whose, write) in writes {
        let record = data::record(list());
        writing.push(peer(whose, move |room| of_length(black_box(write)(black_box(&record), room))));
    }
    let other: Vec<u8> = frame.iter().map(|byte| byte ^ OTHER).collect();
    let mut reading = ours(|build| Box::new(in_place(&other, move |frame| read_frame(build.read_frame_for, frame))));
    let reads: [(&str, ReadRecord); 2] = [("by hand, for zero", framed::read), ("vectors, for zero", framed::by_vectors::read)];
    for (whose, read) in reads {
        reading.push(peer(whose, in_place(&frame, move |frame| black_box(read)(frame))));
    }
    [
        Row { masked: true, ..row_of("`to_slice_cobs_with_sentinel`", FRAMING, "record", 1.0, 256, writing) },
        row_of("`from_bytes_cobs_with_sentinel`", FRAME_READ, "record", 1.0, 0, reading),
    ]
}

/// The peers of a record that is written or read.
const IN_VEC: [(&str, LengthOf); 2] = [
    ("by hand", |record| black_box(by_hand::write_vec(record)).map(|bytes| bytes.len())),
    ("tight", |record| black_box(tight::write_vec(record)).map(|bytes| bytes.len())),
];
const IN_ARRAY: [(&str, LengthOf); 2] = [
    ("by hand", |record| black_box(by_hand::write_array(record)).map(|(_, len)| len)),
    ("tight", |record| black_box(tight::write_array(record)).map(|(_, len)| len)),
];
const FRAME_IN_VEC: [(&str, LengthOf); 2] = [
    ("by hand", |record| black_box(framed::write_vec(record)).map(|bytes| bytes.len())),
    ("vectors", |record| black_box(framed::by_vectors::write_vec(record)).map(|bytes| bytes.len())),
];
const FRAME_IN_ARRAY: [(&str, LengthOf); 2] = [
    ("by hand", |record| black_box(framed::write_array(record)).map(|(_, len)| len)),
    ("vectors", |record| black_box(framed::by_vectors::write_array(record)).map(|(_, len)| len)),
];
const READS: [(&str, ReadParts); 2] = [("by hand", by_hand::read), ("tight", tight::read)];
const KEEPS: [(&str, ReadParts); 2] = [("by hand", by_hand::read_kept), ("tight", tight::read_kept)];

fn framed_rows() -> Vec<Row> {
    let mut rows = vec![
        lengths("`serialized_size`", RECORD, |build, record| build.length(false, record), &[("by hand", by_hand::size)]),
        lengths("`to_allocvec`", RECORD, |build, record| build.length(true, record), &IN_VEC),
        lengths("`to_extend`", RECORD, |build, record| build.write_by(0, record), &IN_VEC),
        lengths("`to_vec`", WRITING, |build, record| build.write_by(1, record), &IN_ARRAY),
        lengths("`to_io`", RECORD, |build, record| build.write_by(2, record), &IN_ARRAY),
        spelled("`take_from_bytes`", TAKING, |build| build.take, &READS),
        spelled("`from_bytes_owned`", TAKING, |build| build.read_owned, &KEEPS),
        spelled("`from_io`", RECORD_READ, |build| build.read_io, &[("by hand", by_hand::read_from)]),
        writing("`to_slice_cobs`", |build| build.write_frame, &[("by hand", framed::write), ("vectors", framed::by_vectors::write)]),
        lengths("`to_vec_cobs`", FRAMING, |build, record| build.write_by(3, record), &FRAME_IN_ARRAY),
        lengths("`to_allocvec_cobs`", FRAMING, |build, record| build.write_by(4, record), &FRAME_IN_VEC),
        writing("`frame_into`", |build| build.frame_into, &[("by hand", framed::frame), ("vectors", framed::by_vectors::frame)]),
        reading(
            "`from_bytes_cobs`",
            FRAME_READ,
            framed::write,
            |build| build.read_frame,
            &[("by hand", framed::read), ("vectors", framed::by_vectors::read)],
        ),
    ];
    rows.extend(for_another());
    rows
}

fn sealed_rows() -> Vec<Row> {
    let write: [(&str, WriteRecord); 3] =
        [("a byte a step", sums::write_by_bytes), ("eight a step", sums::write_by_eight), ("products", sums::write_by_products)];
    let read: [(&str, ReadRecord); 3] =
        [("a byte a step", sums::read_by_bytes), ("eight a step", sums::read_by_eight), ("products", sums::read_by_products)];
    let bytes: &'static [u8] = data::message("random", 1024).leak();
    let sum = |sum: fn(&[u8]) -> u32| move |_: &mut [u8]| of(&[black_box(sum)(black_box(bytes)).into()]);
    let mut summing = ours(|build| Box::new(move |_| of(&[build.sealed_sum(black_box(bytes)).into()])));
    summing.push(peer("a byte a step", sum(sums::by_bytes)));
    summing.push(peer("eight a step", sum(sums::by_eight)));
    summing.push(peer("products", sum(sums::by_products)));
    vec![
        writing("a sealed record's `to_slice_cobs`", |build| build.sealed_write, &write),
        reading("a sealed record's `from_bytes_cobs`", READING, sums::write_by_bytes, |build| build.sealed_read, &read),
        row_of("`crc32` of 1024 bytes", FRAMING, "call", 1.0, 0, summing),
    ]
}

fn schemas_rows() -> Vec<Row> {
    let source = spelling();
    let mut making = ours(|build| {
        Box::new(move |_| {
            // SAFETY: it takes nothing.
            let count = unsafe { (build.table)() };
            of(&[count as u64])
        })
    });
    making.push(peer("by hand", |_| of(&[black_box(tables::count_nodes as fn() -> usize)() as u64])));
    let mut reading = ours(|build| Box::new(move |_| of_found(build.schemas_read(black_box(source), VALUES))));
    reading.push(peer("by hand", move |_| {
        of_found(black_box(tables::read_times as fn(&[u8], u32) -> _)(black_box(source), VALUES))
    }));
    let mut writing = ours(|build| Box::new(move |room| of_length(build.schemas_write(black_box(source), VALUES, room))));
    writing.push(peer("by hand", move |room| {
        of_length(black_box(tables::write_times as fn(&[u8], u32, &mut [u8]) -> _)(black_box(source), VALUES, room))
    }));
    let values = f64::from(VALUES);
    vec![
        row_of("`schema_of` a record", FRAMING, "table", 1.0, 0, making),
        row_of("`schemas::from_bytes` of a record", READING, "record", values, 0, reading),
        row_of("`to_slice` of a `Value`", FRAMING, "record", values + 1.0, 256, writing),
    ]
}

/// The peers that frame by runs and by vectors.
const BY_HAND: [&str; 2] = ["by hand", "vectors"];

type PeerTaking = fn(&[u8], usize) -> Found;
type PeerMaking = fn(&[u8], u32, &mut [u8]) -> Counted;
type PeerServing = fn(&[u8], usize, &mut [u8], &mut Counted);

/// A row of a stream in reads or pieces of so many bytes.
fn taking(call: &str, piece: usize, ours_of: fn(&Layers) -> Taken, peers: &[(&'static str, PeerTaking)]) -> Row {
    taking_for(call, piece, 0, ours_of, peers)
}

/// The same, where ours take the stream for a sentinel, and the peers that for zero.
fn taking_for(
    call: &str,
    piece: usize,
    sentinel: u8,
    ours_of: fn(&Layers) -> Taken,
    peers: &[(&'static str, PeerTaking)],
) -> Row {
    let stream: &'static [u8] = data::stream(STREAM).leak();
    let other: &'static [u8] = stream.iter().map(|byte| byte ^ sentinel).collect::<Vec<u8>>().leak();
    let mut ways = ours(|build| {
        let call = ours_of(&build);
        Box::new(move |_| of_found(taken(call, black_box(other), black_box(piece))))
    });
    for &(whose, take) in peers {
        ways.push(peer(whose, move |_| of_found(black_box(take)(black_box(stream), black_box(piece)))));
    }
    let goal = if [64, 1024].contains(&piece) { READING } else { Goal::first(STREAMED) };
    row_of(call, goal, "byte", stream.len() as f64, 0, ways)
}

/// A row of values that are made, of a number and a text. Where it is counted the room may be too short for what was made elsewhere.
fn making(call: &str, room: usize, ours_of: fn(&Layers) -> Made, by_hand: [PeerMaking; 2]) -> Row {
    let mut ways = ours(|build| {
        let call = ours_of(&build);
        Box::new(move |room| of_counted(made(call, black_box(TEXT), VALUES, room)))
    });
    for (whose, by_hand) in BY_HAND.into_iter().zip(by_hand) {
        ways.push(peer(whose, move |room| of_counted(black_box(by_hand)(black_box(TEXT), VALUES, room))));
    }
    let most = 40 * VALUES as usize;
    Row { room, most, ..row_of(call, FRAMING, "value", f64::from(VALUES), 0, ways) }
}

/// A row of a server that listens, by reads of so many bytes.
fn serving(call: &str, goal: Goal, requests: &'static [u8], ours_of: fn(&Layers) -> Served, by_hand: [PeerServing; 2]) -> Row {
    const EACH: usize = 64;
    let mut ways = ours(|build| {
        let call = ours_of(&build);
        Box::new(move |room| of_counted(served(call, black_box(requests), EACH, room)))
    });
    for (whose, by_hand) in BY_HAND.into_iter().zip(by_hand) {
        ways.push(peer(whose, move |room| {
            let mut counted = Counted::default();
            black_box(by_hand)(black_box(requests), EACH, room, &mut counted);
            of_counted(counted)
        }));
    }
    row_of(call, goal, "request", f64::from(CALLS), 48 * usize::from(CALLS), ways)
}

/// The requests of calls, as a peer writes them.
fn requests(sealed: bool) -> &'static [u8] {
    let mut room = vec![0; 48 * usize::from(CALLS)];
    let written = if sealed {
        sealed_calls::requests(FIRST, CALLS, &mut room)
    } else {
        let mut counted = Counted::default();
        remote::call::<false>(&[], 1, FIRST, CALLS, &mut room, &mut counted);
        counted.written
    };
    room[..written].to_vec().leak()
}

/// A row of a stream that is read where it lies: it is copied anew each time.
fn lying() -> Row {
    let stream: &'static [u8] = data::stream(STREAM).leak();
    let copied = |mut read: Box<dyn FnMut(&mut [u8]) -> Found>| {
        let mut buf = stream.to_vec();
        move |_: &mut [u8]| {
            buf.copy_from_slice(black_box(stream));
            of_found(read(black_box(&mut buf)))
        }
    };
    let mut ways = ours(|build| Box::new(copied(Box::new(move |buf| build.read_in_place(buf)))));
    let peers: [(&str, fn(&mut [u8]) -> Found); 2] = [("by hand", streams::records_in_place), ("vectors", streams::in_place_by_vectors)];
    for (whose, read) in peers {
        ways.push(peer(whose, copied(Box::new(move |buf| black_box(read)(buf)))));
    }
    row_of("`read_in_place`", READING, "byte", stream.len() as f64, 0, ways)
}

fn line_rows() -> Vec<Row> {
    let pieces: [(&str, PeerTaking); 3] = [
        ("accumulator", streams::records_by_accumulator),
        ("runs", streams::records_by_runs),
        ("vectors", streams::records_by_vectors),
    ];
    let strict: [(&str, PeerTaking); 1] = [("runs", streams::exact_records_by_runs)];
    let lent: [(&str, PeerTaking); 2] = [("runs", streams::lent_records_by_runs), ("vectors", streams::lent_records_by_vectors)];
    let room = 40 * VALUES as usize;
    let mut rows = vec![
        making("`Sender::send`", room, |build| build.send, [codec::send::<false>, codec::send::<true>]),
        Row { masked: true, ..making("`Sender::send` for 10", room, |build| build.send_for, [codec::send::<false>, codec::send::<true>]) },
        making("`send_each`, eight at once", room, |build| build.send_each, [codec::send_eights::<false>, codec::send_eights::<true>]),
    ];
    for piece in [1, 2, 4, 8, 16, 64, 1024, 4096] {
        let of = |call: &str| format!("{call}, chunks of {piece}");
        rows.push(taking(&of("a receiver's `push`"), piece, |build| build.push, &pieces));
        if ![64, 1024].contains(&piece) {
            continue;
        }
        rows.push(taking(&of("a receiver's `push_ref`"), piece, |build| build.push_ref, &lent));
        rows.push(taking_for(&of("a receiver's `push` for 10"), piece, OTHER, |build| build.push_for, &pieces));
        rows.push(taking(&of("a receiver's `push_strict`"), piece, |build| build.push_strict, &strict));
        rows.push(taking(&of("an owned receiver's `push`"), piece, |build| build.push_owned, &pieces));
    }
    rows.extend(reading_rows());
    rows.push(lying());
    rows
}

/// Rows of a line that is read.
fn reading_rows() -> Vec<Row> {
    let reads: [(&str, PeerTaking); 2] = [("runs", streams::records_by_reads), ("vectors", streams::read_by_vectors)];
    let listed: [(&str, PeerTaking); 2] = [("runs", streams::records_listed), ("vectors", streams::listed_by_vectors)];
    let gathered: [(&str, PeerTaking); 2] = [("runs", streams::values_listed), ("vectors", streams::listed_by_vectors)];
    let exact: [(&str, PeerTaking); 1] = [("runs", streams::exact_records_listed)];
    let mut rows = Vec::new();
    for each in [64, 1024] {
        let of = |call: &str| format!("{call}, reads of {each}");
        rows.push(taking(&of("`receive_each_with`"), each, |build| build.receive_each, &reads));
        rows.push(taking(&of("`listen_with`"), each, |build| build.listen, &reads));
        rows.push(taking(&of("`listen_until_with`"), each, |build| build.listen_until, &reads));
        rows.push(taking(&of("`receive`"), each, |build| build.receive, &listed));
        rows.push(taking(&of("`receive_strict`"), each, |build| build.receive_strict, &exact));
        rows.push(taking(&of("`receive_owned`"), each, |build| build.receive_owned, &listed));
        rows.push(taking(&of("`receive_owned_strict`"), each, |build| build.receive_owned_strict, &exact));
        rows.push(taking(&of("`receive_by_accumulator`"), each, |build| build.gather, &gathered));
    }
    rows
}

fn codec_rows() -> Vec<Row> {
    let peers: [(&str, PeerTaking); 3] =
        [("buffer", codec::decode), ("runs", streams::records_by_reads), ("vectors", streams::read_by_vectors)];
    let strict: [(&str, PeerTaking); 1] = [("runs", streams::exact_records_by_runs)];
    let mut rows = Vec::new();
    for piece in [64, 1024] {
        let call = format!("the codec's `decode`, chunks of {piece}");
        rows.push(taking(&call, piece, |build| build.decode, &peers));
        let call = format!("an owned codec's `decode`, chunks of {piece}");
        rows.push(taking(&call, piece, |build| build.decode_owned, &peers));
        let call = format!("a strict codec's `decode`, chunks of {piece}");
        rows.push(taking(&call, piece, |build| build.decode_strict, &strict));
    }
    rows.push(making("the codec's `encode`", 0, |build| build.encode, [codec::encode::<false>, codec::encode::<true>]));
    rows
}

fn serving_rows() -> Vec<Row> {
    vec![
        serving(
            "a server that listens",
            SERVING,
            requests(false),
            |build| build.serve,
            [remote::serve_reading::<false>, remote::serve_reading::<true>],
        ),
        serving(
            "a server that listens, sealed",
            READING,
            requests(true),
            |build| build.serve_sealed,
            [sealed_calls::serve::<false>, sealed_calls::serve::<true>],
        ),
    ]
}

fn log_rows() -> Vec<Row> {
    let mut room = vec![0; 40 * VALUES as usize];
    let written = log::append::<false>(TEXT, VALUES, &mut room).written;
    let held: &'static [u8] = room[..written].to_vec().leak();
    let reading = |call: &str, ours_of: fn(&Layers) -> Count, by_hand: [fn(&[u8]) -> Found; 2]| {
        let mut ways = ours(|build| {
            let call = ours_of(&build);
            Box::new(move |_| of_found(counted(call, black_box(held))))
        });
        for (whose, by_hand) in BY_HAND.into_iter().zip(by_hand) {
            ways.push(peer(whose, move |_| of_found(black_box(by_hand)(black_box(held)))));
        }
        row_of(call, READING, "record", f64::from(VALUES), 0, ways)
    };
    vec![
        making("`Journal::append` and `sync`", 0, |build| build.append, [log::append::<false>, log::append::<true>]),
        making("`frame_record`", 40 * VALUES as usize, |build| build.frame_record, [log::frame_records::<false>, log::frame_records::<true>]),
        reading("`Journal::open`", |build| build.open, [log::open::<false>, log::open::<true>]),
        reading("`read_all`", |build| build.read_all, [log::read_all::<false>, log::read_all::<true>]),
    ]
}

/// Bytes of which so many, which were written for zero, are for another sentinel.
fn masked(bytes: &[u8], written: u64) -> Vec<u8> {
    let written = written as usize;
    bytes.iter().enumerate().map(|(i, &byte)| if i < written { byte ^ OTHER } else { byte }).collect()
}

/// All rows, each way of which is seen to answer and to write the same.
fn rows() -> Vec<Row> {
    let groups: [(&'static str, fn() -> Vec<Row>); 8] = [
        ("other calls of cobs", cobs_rows),
        ("records in frames", framed_rows),
        ("sealed records", sealed_rows),
        ("tables of types", schemas_rows),
        ("sending, receiving, listening", line_rows),
        ("the codec", codec_rows),
        ("servers that listen", serving_rows),
        ("a log", log_rows),
    ];
    let all = groups.iter().flat_map(|(group, rows)| rows().into_iter().map(|row| Row { group, ..row }));
    let mut rows: Vec<Row> = all.collect();
    for row in &mut rows {
        let done = row.ways.iter_mut().map(|way| {
            let mut room = vec![0; row.most];
            ((way.work)(&mut room), room, way.whose)
        });
        let done: Vec<_> = done.collect();
        for (outcome, room, whose) in &done {
            assert!(outcome[0] > 0, "{}, {whose}: {outcome:?}", row.call);
            assert_eq!(outcome, &done[0].0, "{}, {whose}", row.call);
            let mask = row.masked && *whose != "ours";
            let room = if mask { masked(room, outcome[1].max(outcome[2])) } else { room.clone() };
            assert!(room == done[0].1, "{}, {whose}: what is written", row.call);
        }
    }
    rows
}

/// Counts all rows, where valgrind looks on.
pub fn count_layers() {
    for row in &mut rows() {
        let mut room = vec![0; row.room];
        for way in &mut row.ways {
            count(&format!("{}/{}/0/", row.call, way.whose), || {
                black_box((way.work)(black_box(&mut room)));
            });
        }
    }
}

/// Prints what was counted.
pub fn print_layers(counts: &Counts, report: &mut Report) {
    for made in rows() {
        report.begin(made.group);
        let of = |whose: &str| counts.of(&made.call, whose, 0, "") / made.times;
        let peers = made.ways.iter().map(|way| way.whose).filter(|whose| *whose != "ours");
        let peers: Vec<_> = peers.map(|whose| (whose, of(whose))).collect();
        report.line(&made.call, made.each, of("ours"), &peers, Some(made.goal));
    }
}
