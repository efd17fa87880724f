//! Both sides of remote calls over memory, by hand: as `bench_layers` has them. Frames are made and read run by run, or with `V` by
//! vectors, where the message is.
use crate::frames::{first_zero, runs, vectors};
use crate::remote::Counted;

/// The bytes of a frame at most, and of a read.
pub const FRAME: usize = 32;
pub const EACH: usize = 1024;

/// A line in memory that is written to.
pub struct Line<'a, const V: bool> {
    room: &'a mut [u8],
    pub written: usize,
    /// Whether the last send ended in a zero.
    clean: bool,
}

impl<'a, const V: bool> Line<'a, V> {
    pub fn new(room: &'a mut [u8]) -> Line<'a, V> {
        let (written, clean) = (0, false);
        Line { room, written, clean }
    }

    /// Begins a session, whose first send has a zero in front.
    pub fn begin(&mut self) {
        self.clean = false;
    }

    /// Sends a message as a frame with a zero behind it, and before the first one of a session.
    #[inline]
    pub fn send(&mut self, message: &[u8]) {
        let start = usize::from(!self.clean);
        self.clean = true;
        if V {
            let end = start + message.len() + 2;
            let place = &mut self.room[self.written..self.written + end];
            self.written += end;
            place[0] = 0;
            place[end - 1] = 0;
            place[start + 1..end - 1].copy_from_slice(message);
            vectors::encode_in_place(&mut place[start..], message.len());
            return;
        }
        let mut frame = [0; FRAME + 2];
        let end = start + runs::encode(message, &mut frame[start..]) + 1;
        frame[end - 1] = 0;
        self.room[self.written..self.written + end].copy_from_slice(&frame[..end]);
        self.written += end;
    }
}

/// A message that is spelled.
pub struct Spelling {
    pub bytes: [u8; FRAME],
    pub len: usize,
}

impl Spelling {
    pub fn new() -> Spelling {
        let (bytes, len) = ([0; FRAME], 0);
        Spelling { bytes, len }
    }

    #[inline]
    pub fn number(&mut self, mut number: u64) {
        while number >= 128 {
            self.bytes[self.len] = number as u8 | 128;
            self.len += 1;
            number >>= 7;
        }
        self.bytes[self.len] = number as u8;
        self.len += 1;
    }
}

/// A number of so many bits at the front of the rest.
#[inline]
pub fn number(rest: &mut &[u8], bits: u32) -> Option<u64> {
    let mut number = 0;
    let mut shift = 0;
    loop {
        let (&byte, behind) = rest.split_first()?;
        *rest = behind;
        let group = u64::from(byte & 127);
        if bits - shift < 7 && group >> (bits - shift) != 0 {
            return None;
        }
        number |= group << shift;
        if byte < 128 {
            return Some(number);
        }
        shift += 7;
        if shift >= bits {
            return None;
        }
    }
}

/// What was received of a frame that isn't ended; `len` past the room says that it is too long.
pub struct Receiver<const V: bool> {
    held: [u8; FRAME],
    len: usize,
}

impl<const V: bool> Receiver<V> {
    pub fn new() -> Receiver<V> {
        let (held, len) = ([0; FRAME], 0);
        Receiver { held, len }
    }

    /// Keeps what is behind the last zero of a piece.
    fn keep(&mut self, bytes: &[u8]) {
        if let Some(room) = self.held.get_mut(self.len..self.len + bytes.len()) {
            room.copy_from_slice(bytes);
        }
        self.len = (self.len + bytes.len()).min(FRAME + 1);
    }

    /// Hands on the message of each frame that ends in a piece.
    #[inline]
    pub fn take(&mut self, piece: &[u8], mut hear: impl FnMut(&[u8])) {
        let mut rest = piece;
        let mut message = [0; FRAME];
        while let Some(zero) = if V { vectors::first_zero(rest) } else { first_zero(rest) } {
            let mut stretch = &rest[..zero];
            rest = &rest[zero + 1..];
            if self.len > 0 {
                self.keep(stretch);
                stretch = self.held.get(..self.len).unwrap_or(&[]);
                self.len = 0;
            }
            if stretch.is_empty() || stretch.len() > FRAME {
                continue;
            }
            let len = if V { vectors::decode_frame(stretch, &mut message) } else { runs::decode_frame(stretch, &mut message) };
            if let Some(len) = len {
                hear(&message[..len]);
            }
        }
        self.keep(rest);
    }
}

/// Reads up to so many bytes into a room, as a reader does.
#[inline]
pub fn read<'a>(bytes: &mut &[u8], each: usize, room: &'a mut [u8; EACH]) -> &'a [u8] {
    let count = bytes.len().min(each).min(EACH);
    let (front, behind) = bytes.split_at(count);
    *bytes = behind;
    room[..count].copy_from_slice(front);
    &room[..count]
}

#[inline]
fn request(message: &[u8]) -> Option<(u64, u16, u32)> {
    let mut rest = message;
    let called = number(&mut rest, 64)?;
    let which = number(&mut rest, 16)?;
    let amount = number(&mut rest, 32)?;
    Some((called, which as u16, amount as u32))
}

#[inline]
fn reply(message: &[u8]) -> Option<(u64, bool, u64)> {
    let mut rest = message;
    let called = number(&mut rest, 64)?;
    let (&even, behind) = rest.split_first()?;
    if even > 1 {
        return None;
    }
    rest = behind;
    Some((called, even == 1, number(&mut rest, 64)?))
}

#[inline]
fn send_reply<const V: bool>(line: &mut Line<'_, V>, (called, even, said): (u64, bool, u64)) {
    let mut spelling = Spelling::new();
    spelling.number(called);
    spelling.number(even.into());
    spelling.number(said);
    line.send(&spelling.bytes[..spelling.len]);
}

pub fn serve<const V: bool>(requests: &[u8], room: &mut [u8], counted: &mut Counted) {
    serve_reading::<V>(requests, EACH, room, counted);
}

/// The same, where each read gives so many bytes at most.
#[inline]
pub fn serve_reading<const V: bool>(requests: &[u8], each: usize, room: &mut [u8], counted: &mut Counted) {
    let mut rest = requests;
    let mut line = Line::<V>::new(room);
    let mut piece = [0; EACH];
    let mut receiver = Receiver::<V>::new();
    let mut last: Option<(u64, bool, u64)> = None;
    let (mut calls, mut sum) = (0u64, 0u64);
    while !rest.is_empty() {
        let piece = read(&mut rest, each, &mut piece);
        receiver.take(piece, |message| {
            let Some((called, which, amount)) = request(message) else {
                return;
            };
            match last {
                Some(kept) if called < kept.0 => {}
                Some(kept) if called == kept.0 => send_reply(&mut line, kept),
                _ => {
                    let said = u64::from(amount) << 20;
                    calls += 1;
                    sum = sum.wrapping_add(said);
                    let kept = (called, which % 2 == 0, said);
                    last = Some(kept);
                    send_reply(&mut line, kept);
                }
            }
        });
    }
    let written = line.written;
    *counted = Counted { calls, sum, written };
}

pub fn call<const V: bool>(
    replies: &[u8],
    each: usize,
    first: u64,
    count: u16,
    room: &mut [u8],
    counted: &mut Counted,
) {
    let mut rest = replies;
    let mut line = Line::<V>::new(room);
    let mut piece = [0; EACH];
    let mut receiver = Receiver::<V>::new();
    let (mut calls, mut sum) = (0u64, 0u64);
    for which in 0..count {
        let called = first + u64::from(which);
        let mut spelling = Spelling::new();
        spelling.number(called);
        spelling.number(which.into());
        spelling.number(65_536 + u64::from(which));
        line.send(&spelling.bytes[..spelling.len]);
        let mut said = None;
        while said.is_none() && !rest.is_empty() {
            let piece = read(&mut rest, each, &mut piece);
            receiver.take(piece, |message| match reply(message) {
                Some((number, _, value)) if number == called && said.is_none() => said = Some(value),
                _ => {}
            });
        }
        if let Some(said) = said {
            calls += 1;
            sum = sum.wrapping_add(said);
        }
    }
    let written = line.written;
    *counted = Counted { calls, sum, written };
}
