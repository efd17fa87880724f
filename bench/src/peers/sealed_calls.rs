//! A server of sealed requests, by hand: each has its number inside too, and a sum of both; in a reply the number inside is one above.
use super::remote::{number, read, Line, Receiver, Spelling, EACH};
use super::sums::by_bytes;
use crate::remote::Counted;

impl Spelling {
    /// Puts the sum of what is spelled from a place on.
    #[inline]
    fn seal(&mut self, start: usize) {
        let sum = by_bytes(&self.bytes[start..self.len]);
        self.bytes[self.len..self.len + 4].copy_from_slice(&sum.to_le_bytes());
        self.len += 4;
    }
}

/// Whether the sum of what was read of a message, without the rest, is what the rest begins with.
#[inline]
fn is_sealed(spelled: &[u8], rest: &[u8]) -> bool {
    let seal = by_bytes(&spelled[..spelled.len() - rest.len()]).to_le_bytes();
    rest.first_chunk() == Some(&seal)
}

#[inline]
fn request(message: &[u8]) -> Option<(u64, u64, u16, u32)> {
    let mut rest = message;
    let called = number(&mut rest, 64)?;
    let spelled = rest;
    let inside = number(&mut rest, 64)?;
    let which = number(&mut rest, 16)?;
    let amount = number(&mut rest, 32)?;
    is_sealed(spelled, rest).then_some((called, inside, which as u16, amount as u32))
}

#[inline]
fn send_reply<const V: bool>(line: &mut Line<'_, V>, (called, even, said): (u64, bool, u64)) {
    let mut spelling = Spelling::new();
    spelling.number(called);
    let start = spelling.len;
    spelling.number(called.wrapping_add(1));
    spelling.number(even.into());
    spelling.number(said);
    spelling.seal(start);
    line.send(&spelling.bytes[..spelling.len]);
}

/// The requests of so many calls, by numbers from `first` on.
pub fn requests(first: u64, count: u16, room: &mut [u8]) -> usize {
    let mut line = Line::<false>::new(room);
    for which in 0..count {
        let called = first + u64::from(which);
        let mut spelling = Spelling::new();
        spelling.number(called);
        let start = spelling.len;
        spelling.number(called);
        spelling.number(which.into());
        spelling.number(65_536 + u64::from(which));
        spelling.seal(start);
        line.send(&spelling.bytes[..spelling.len]);
    }
    line.written
}

pub fn serve<const V: bool>(requests: &[u8], each: usize, room: &mut [u8], counted: &mut Counted) {
    let mut rest = requests;
    let mut line = Line::<V>::new(room);
    let mut piece = [0; EACH];
    let mut receiver = Receiver::<V>::new();
    let mut last: Option<(u64, bool, u64)> = None;
    let (mut calls, mut sum) = (0u64, 0u64);
    while !rest.is_empty() {
        let piece = read(&mut rest, each, &mut piece);
        receiver.take(piece, |message| {
            let Some((called, inside, which, amount)) = request(message) else {
                return;
            };
            if called != inside {
                return;
            }
            match last {
                Some(kept) if called < kept.0 => {}
                Some(kept) if called == kept.0 => send_reply(&mut line, kept),
                _ => {
                    let said = u64::from(amount) << 20;
                    calls += 1;
                    sum = sum.wrapping_add(said);
                    let kept = (called, which % 2 == 0, said);
                    last = Some(kept);
                    send_reply(&mut line, kept);
                }
            }
        });
    }
    let written = line.written;
    *counted = Counted { calls, sum, written };
}
