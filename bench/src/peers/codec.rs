//! Frames taken from the front of a buffer into which a stream is put piece by piece, put into one, and sent over a line.
use super::log::spell_value;
use super::records::{self, Owned};
use super::remote::{Line, Spelling};
use super::streams::count;
use crate::calls::Found;
use crate::frames::{first_zero, runs, vectors};
use crate::remote::Counted;

/// How many bytes a stretch and a message have at most.
const LIMIT: usize = 512;

/// The record of a stretch.
#[inline]
fn record(stretch: &[u8], message: &mut [u8; LIMIT]) -> Option<Owned> {
    if stretch.len() > LIMIT {
        return None;
    }
    let len = runs::decode_frame(stretch, message)?;
    records::read_owned(&message[..len])
}

/// The records of a stream, each piece of which is put into the buffer first.
pub fn decode(stream: &[u8], piece: usize) -> Found {
    let mut found = Found::default();
    let mut buffer: Vec<u8> = Vec::new();
    let mut message = [0; LIMIT];
    for bytes in stream.chunks(piece) {
        let mut looked = buffer.len();
        buffer.extend_from_slice(bytes);
        let mut start = 0;
        while let Some(zero) = first_zero(&buffer[looked..]) {
            let stretch = &buffer[start..looked + zero];
            if !stretch.is_empty() {
                count(&mut found, record(stretch, &mut message));
            }
            start = looked + zero + 1;
            looked = start;
        }
        buffer.drain(..start);
    }
    if !buffer.is_empty() {
        count(&mut found, None);
    }
    found
}

/// Encodes so many values, each a number and this text, into a buffer, and puts it to the front of the room where that is as long.
pub fn encode<const V: bool>(text: &[u8], values: u32, room: &mut [u8]) -> Counted {
    let mut counted = Counted::default();
    let Ok(text) = std::str::from_utf8(text) else {
        return counted;
    };
    let mut line = Vec::new();
    for which in 0..values {
        let mut spelling = Spelling::new();
        spell_value(&mut spelling, which, text);
        let mut frame = [0; 40];
        let start = usize::from(which > 0);
        let message = &spelling.bytes[..spelling.len];
        let end = 1 + if V { vectors::encode(message, &mut frame[1..]) } else { runs::encode(message, &mut frame[1..]) };
        line.extend_from_slice(&frame[start..=end]);
        counted.calls += 1;
    }
    if line.len() <= room.len() {
        room[..line.len()].copy_from_slice(&line);
    }
    counted.written = line.len();
    counted
}

/// Sends so many values, each a number and this text, to the front of the room.
pub fn send<const V: bool>(text: &[u8], values: u32, room: &mut [u8]) -> Counted {
    send_by::<V>(values, text, values, room)
}

/// The same in sessions of eight, of which each begins with a zero.
pub fn send_eights<const V: bool>(text: &[u8], values: u32, room: &mut [u8]) -> Counted {
    send_by::<V>(8, text, values, room)
}

fn send_by<const V: bool>(session: u32, text: &[u8], values: u32, room: &mut [u8]) -> Counted {
    let mut counted = Counted::default();
    let Ok(text) = std::str::from_utf8(text) else {
        return counted;
    };
    let mut line = Line::<V>::new(room);
    for which in 0..values {
        if which != 0 && which % session == 0 {
            line.begin();
        }
        let mut spelling = Spelling::new();
        spell_value(&mut spelling, which, text);
        line.send(&spelling.bytes[..spelling.len]);
        counted.calls += 1;
    }
    counted.written = line.written;
    counted
}
