//! A log in memory: each record its number, a `u32` and a text, in a frame with a zero behind it.
use super::records::{groups, take};
use super::remote::{number, read, Receiver, Spelling, EACH};
use crate::calls::Found;
use crate::frames::{runs, vectors};
use crate::remote::Counted;

/// Spells a number and a text behind what is spelled.
#[inline]
pub fn spell_value(spelling: &mut Spelling, which: u32, text: &str) {
    spelling.number(which.into());
    spelling.number(text.len() as u64);
    let end = spelling.len + text.len();
    spelling.bytes[spelling.len..end].copy_from_slice(text.as_bytes());
    spelling.len = end;
}

#[inline(always)]
fn encode<const V: bool>(message: &[u8], frame: &mut [u8]) -> usize {
    if V { vectors::encode(message, frame) } else { runs::encode(message, frame) }
}

/// Appends so many records with this text, and answers what the log holds.
#[inline]
fn appended<const V: bool>(text: &str, count: u32) -> (Vec<u8>, Counted) {
    let mut log = Vec::new();
    let mut counted = Counted::default();
    let mut next = 0u64;
    for which in 0..count {
        let mut spelling = Spelling::new();
        spelling.number(next);
        spell_value(&mut spelling, which, text);
        let mut frame = [0; 40];
        let end = encode::<V>(&spelling.bytes[..spelling.len], &mut frame);
        log.extend_from_slice(&frame[..=end]);
        next += 1;
        counted.calls += 1;
    }
    counted.sum = next;
    counted.written = log.len();
    (log, counted)
}

/// Appends so many records, and puts the log to the front of the room where that is as long.
pub fn append<const V: bool>(text: &[u8], count: u32, room: &mut [u8]) -> Counted {
    let Ok(text) = std::str::from_utf8(text) else {
        return Counted::default();
    };
    let (log, counted) = appended::<V>(text, count);
    if log.len() <= room.len() {
        room[..log.len()].copy_from_slice(&log);
    }
    counted
}

/// A record that is spelled as appending one spells it: no number has groups that it needn't have.
#[inline]
fn record(message: &[u8]) -> Option<(u64, u32, String)> {
    let mut rest = message;
    let of = number(&mut rest, 64)?;
    let amount = number(&mut rest, 32)?;
    let len = number(&mut rest, 64)?;
    let text = std::str::from_utf8(take(&mut rest, len as usize)?).ok()?;
    let spelled = groups(of) + groups(amount) + groups(len) + text.len();
    (rest.is_empty() && spelled == message.len()).then(|| (of, amount as u32, text.to_owned()))
}

/// Copies a log into a store, puts a zero behind it, and reads it piece by piece.
pub fn open<const V: bool>(log: &[u8]) -> Found {
    let mut store = log.to_vec();
    store.push(0);
    read_store::<V>(&store)
}

/// Copies a log into a store, and reads it piece by piece.
pub fn read_all<const V: bool>(log: &[u8]) -> Found {
    read_store::<V>(&log.to_vec())
}

/// Makes so many records, each where the one before it ends in the room.
pub fn frame_records<const V: bool>(text: &[u8], count: u32, room: &mut [u8]) -> Counted {
    let mut counted = Counted::default();
    let Ok(text) = std::str::from_utf8(text) else {
        return counted;
    };
    for which in 0..count {
        let mut spelling = Spelling::new();
        spelling.number(which.into());
        spell_value(&mut spelling, which, text);
        let place = &mut room[counted.written..];
        let end = encode::<V>(&spelling.bytes[..spelling.len], place);
        place[end] = 0;
        counted.written += end + 1;
        counted.calls += 1;
    }
    counted.sum = counted.calls;
    counted
}

#[inline]
fn read_store<const V: bool>(store: &[u8]) -> Found {
    let mut found = Found::default();
    let mut receiver = Receiver::<V>::new();
    let mut piece = [0; EACH];
    let (mut next, mut through) = (0u64, 0usize);
    let mut rest = store;
    while !rest.is_empty() {
        let piece = read(&mut rest, EACH, &mut piece);
        let heard = store.len() - rest.len();
        receiver.take(piece, |message| match record(message) {
            Some((of, amount, text)) if of <= next + ((heard - through) / 3) as u64 => {
                if of >= next {
                    (next, through) = (of + 1, heard);
                }
                found.values += 1;
                found.sum = found.sum.wrapping_add(of + u64::from(amount) + text.len() as u64);
                std::hint::black_box(&text);
            }
            _ => found.refused += 1,
        });
    }
    found
}
