//! The record's encoding by as few steps as it can have: space is tested once, for the longest encoding, and so are the bytes that are
//! left for each number of a list. Then numbers are written and read without bounds, in unsafe code.
use super::records::{self, parts, Owned};
use crate::calls::Parts;
use crate::data::Record;

#[inline(always)]
unsafe fn put_u16(to: *mut u8, n: u16) -> *mut u8 {
    if n < 128 {
        *to = n as u8;
        return to.add(1);
    }
    let low = (n & 127) | 128;
    if n < 1 << 14 {
        to.cast::<[u8; 2]>().write_unaligned((low | n >> 7 << 8).to_le_bytes());
        return to.add(2);
    }
    to.cast::<[u8; 2]>().write_unaligned((low | (n >> 7 | 128) << 8).to_le_bytes());
    *to.add(2) = (n >> 14) as u8;
    to.add(3)
}

#[inline(always)]
unsafe fn put_u64(mut to: *mut u8, mut n: u64) -> *mut u8 {
    while n >= 128 {
        *to = n as u8 | 128;
        n >>= 7;
        to = to.add(1);
    }
    *to = n as u8;
    to.add(1)
}

/// Writes the record, and returns the length of its encoding.
pub fn write(record: &Record<'_>, room: &mut [u8]) -> Option<usize> {
    let text = std::str::from_utf8(record.text.as_bytes()).ok()?.as_bytes();
    if room.len() < 5 + 10 + 10 + text.len() + 4 + 10 + 3 * record.list.len() {
        return records::write(record, room);
    }
    // SAFETY: there is space for the longest encoding.
    unsafe {
        let start = room.as_mut_ptr();
        let mut to = put_u64(start, record.number.into());
        to = put_u64(to, record.big);
        to = put_u64(to, text.len() as u64);
        std::ptr::copy_nonoverlapping(text.as_ptr(), to, text.len());
        to = to.add(text.len());
        *to = record.perhaps.is_some().into();
        to = to.add(1);
        if let Some(n) = record.perhaps {
            to = put_u16(to, n);
        }
        to = put_u64(to, record.list.len() as u64);
        for &n in record.list {
            to = put_u16(to, n);
        }
        Some(to.offset_from(start) as usize)
    }
}

/// The same in an array of its own, with how much of it that is.
pub fn write_array(record: &Record<'_>) -> Option<([u8; 256], usize)> {
    let mut room = [0; 256];
    let len = write(record, &mut room)?;
    Some((room, len))
}

/// The same in a vector of its own.
pub fn write_vec(record: &Record<'_>) -> Option<Vec<u8>> {
    let (room, len) = write_array(record)?;
    Some(room[..len].to_vec())
}

/// A number of 16 bits, of which three bytes are left.
#[inline(always)]
unsafe fn take_u16(at: &mut *const u8) -> Option<u16> {
    let first = u16::from(**at);
    if first < 128 {
        *at = at.add(1);
        return Some(first);
    }
    let second = u16::from(*at.add(1));
    if second < 128 {
        *at = at.add(2);
        return Some(first & 127 | second << 7);
    }
    let third = u16::from(*at.add(2));
    *at = at.add(3);
    (third < 4).then_some(first & 127 | (second & 127) << 7 | third << 14)
}

/// A list: as many numbers at once as surely are in what is left.
#[inline(always)]
fn take_list(rest: &mut &[u8]) -> Option<Vec<u16>> {
    let count = records::take_number(rest, 64)? as usize;
    let mut list: Vec<u16> = Vec::with_capacity(count.min(rest.len()));
    while list.len() < count {
        let sure = (rest.len() / 3).min(count - list.len());
        if sure == 0 {
            list.push(records::take_number(rest, 16)? as u16);
            continue;
        }
        // SAFETY: three bytes are left for each number, and the list has space for one a byte.
        unsafe {
            let mut at = rest.as_ptr();
            let to = list.as_mut_ptr().add(list.len());
            for i in 0..sure {
                *to.add(i) = take_u16(&mut at)?;
            }
            list.set_len(list.len() + sure);
            *rest = &rest[at.offset_from(rest.as_ptr()) as usize..];
        }
    }
    Some(list)
}

/// The parts of a record: its text is borrowed, its list a vector.
#[inline(always)]
fn take<'a>(rest: &mut &'a [u8]) -> Option<(u32, u64, &'a str, Option<u16>, Vec<u16>)> {
    let number = records::take_number(rest, 32)? as u32;
    let big = records::take_number(rest, 64)?;
    let len = records::take_number(rest, 64)? as usize;
    let text = std::str::from_utf8(records::take(rest, len)?).ok()?;
    let perhaps = match records::take(rest, 1)?[0] {
        0 => None,
        1 => Some(records::take_number(rest, 16)? as u16),
        _ => return None,
    };
    Some((number, big, text, perhaps, take_list(rest)?))
}

/// Reads the record.
pub fn read(bytes: &[u8]) -> Option<Parts> {
    read_front(bytes).map(|(parts, _)| parts)
}

/// The same, with what is after it.
#[inline(always)]
pub fn read_front(bytes: &[u8]) -> Option<(Parts, &[u8])> {
    let mut rest = bytes;
    let (number, big, text, perhaps, list) = take(&mut rest)?;
    Some((parts(number, big, text, perhaps, &list), rest))
}

/// Reads the record with a text of its own.
#[inline]
pub fn read_owned(bytes: &[u8]) -> Option<Owned> {
    let (number, _, text, _, list) = take(&mut &bytes[..])?;
    Some(Owned { number, text: text.to_owned(), list })
}

/// The parts of a record that keeps a text of its own.
pub fn read_kept(bytes: &[u8]) -> Option<Parts> {
    let (number, big, text, perhaps, list) = take(&mut &bytes[..])?;
    let text = std::hint::black_box(text.to_owned());
    Some(parts(number, big, &text, perhaps, &list))
}
