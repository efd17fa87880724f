//! Window by window, in unsafe code: the bytes behind a code are copied as they are, at most 254 of them and up to the zero that
//! ends the frame, by vectors whose ends overlap, and then a walk from code to code puts the zeros. A frame that lies within one
//! window takes one search and one copy.
use super::first_zero;
use std::ptr::copy_nonoverlapping;

const WINDOW: usize = 254;

/// Sixteen bytes, and what is done with them.
#[cfg(target_arch = "x86_64")]
mod lanes {
    use std::arch::x86_64::*;

    pub type Lanes = __m128i;

    #[inline(always)]
    pub unsafe fn load(from: *const u8) -> Lanes {
        _mm_loadu_si128(from.cast())
    }

    #[inline(always)]
    pub unsafe fn store(to: *mut u8, lanes: Lanes) {
        _mm_storeu_si128(to.cast(), lanes);
    }

    /// Bit k is set where byte k is this one.
    #[inline(always)]
    pub unsafe fn marks(lanes: Lanes, byte: u8) -> u64 {
        u64::from(_mm_movemask_epi8(_mm_cmpeq_epi8(lanes, _mm_set1_epi8(byte as i8))) as u32)
    }
}

#[cfg(not(target_arch = "x86_64"))]
mod lanes {
    pub type Lanes = [u8; 16];

    #[inline(always)]
    pub unsafe fn load(from: *const u8) -> Lanes {
        from.cast::<Lanes>().read_unaligned()
    }

    #[inline(always)]
    pub unsafe fn store(to: *mut u8, lanes: Lanes) {
        to.cast::<Lanes>().write_unaligned(lanes);
    }

    #[inline(always)]
    pub unsafe fn marks(lanes: Lanes, byte: u8) -> u64 {
        (0..16).fold(0, |marks, i| marks | u64::from(lanes[i] == byte) << i)
    }
}

use lanes::{load, marks, store, Lanes};

/// Marks a byte among n of them, at most 64.
#[inline(always)]
unsafe fn marks_of(from: *const u8, n: usize, byte: u8) -> u64 {
    let two = |at: usize| marks(load(from.add(at)), byte) | marks(load(from.add(at + 16)), byte) << 16;
    if n >= 32 {
        two(0) | two(n - 32) << (n - 32)
    } else if n >= 16 {
        marks(load(from), byte) | marks(load(from.add(n - 16)), byte) << (n - 16)
    } else {
        (0..n).fold(0, |marks, i| marks | u64::from(*from.add(i) == byte) << i)
    }
}

/// Moves a number of the type's width at each end, of bytes that may overlap: as many as one to two of them have.
#[inline(always)]
unsafe fn move_ends<T>(from: *const u8, to: *mut u8, n: usize) {
    let behind = n - size_of::<T>();
    let front = from.cast::<T>().read_unaligned();
    let back = from.add(behind).cast::<T>().read_unaligned();
    to.cast::<T>().write_unaligned(front);
    to.add(behind).cast::<T>().write_unaligned(back);
}

/// Moves at most 64 bytes towards the front, or elsewhere.
#[inline(always)]
unsafe fn move_few(from: *const u8, to: *mut u8, n: usize) {
    match n {
        32.. => move_ends::<[Lanes; 2]>(from, to, n),
        16.. => move_ends::<Lanes>(from, to, n),
        8.. => move_ends::<u64>(from, to, n),
        4.. => move_ends::<u32>(from, to, n),
        _ => (0..n).for_each(|i| *to.add(i) = *from.add(i)),
    }
}

/// Moves any number of bytes towards the front, or elsewhere.
#[inline(always)]
unsafe fn move_bytes(from: *const u8, to: *mut u8, n: usize) {
    let mut at = 0;
    while n - at >= 64 {
        let lanes = [0, 16, 32, 48].map(|i| load(from.add(at + i)));
        lanes.iter().enumerate().for_each(|(i, l)| store(to.add(at + 16 * i), *l));
        at += 64;
    }
    move_few(from.add(at), to.add(at), n - at);
}

/// How many of the bytes in front are 1, in steps of 64: each is a zero of the message.
#[inline(always)]
unsafe fn ones(from: *const u8, n: usize) -> usize {
    let mut at = 0;
    while n - at >= 64 {
        let all = |sum: u64, i: usize| sum & marks(load(from.add(at + i)), 1);
        if [0, 16, 32, 48].into_iter().fold(0xFFFF, all) != 0xFFFF {
            break;
        }
        at += 64;
    }
    at
}

/// Puts zeros at the codes of n bytes that were moved, where so many are left of a block. Answers how many are left then, and
/// whether the block is a full one.
#[inline(always)]
unsafe fn put_zeros(bytes: *mut u8, n: usize, left: usize) -> (usize, bool) {
    let mut at = left;
    while at < n {
        let code = usize::from(*bytes.add(at));
        *bytes.add(at) = 0;
        if code == 255 {
            return (255 + at - n, true);
        }
        at += code;
    }
    (at - n, false)
}

/// Decodes a frame of n bytes, without zeros and not empty, to a place before it or elsewhere, which has room.
#[inline(always)]
unsafe fn decode_bytes(frame: *const u8, n: usize, to: *mut u8) -> Option<usize> {
    let code = usize::from(*frame);
    let (mut left, mut full) = (code - 1, code == 255);
    let (mut from, mut at) = (1, 0);
    while from < n {
        if full && left == 0 {
            let code = usize::from(*frame.add(from));
            (left, full) = (code - 1, code == 255);
            from += 1;
        } else if full {
            let count = (n - from).min(left);
            move_bytes(frame.add(from), to.add(at), count);
            left -= count;
            from += count;
            at += count;
        } else {
            let row = if left == 0 { ones(frame.add(from), n - from) } else { 0 };
            if row > 0 {
                to.add(at).write_bytes(0, row);
                from += row;
                at += row;
                continue;
            }
            let count = (n - from).min(WINDOW);
            move_bytes(frame.add(from), to.add(at), count);
            (left, full) = put_zeros(to.add(at), count, left);
            from += count;
            at += count;
        }
    }
    (left == 0).then_some(at)
}

/// How many of the bytes come before the first zero: of up to 64 by masks alone.
#[inline(always)]
fn before_zero(bytes: &[u8]) -> usize {
    if bytes.len() <= 64 {
        // SAFETY: the bytes of a slice.
        let marks = unsafe { marks_of(bytes.as_ptr(), bytes.len(), 0) };
        return if marks == 0 { bytes.len() } else { marks.trailing_zeros() as usize };
    }
    first_zero(bytes).unwrap_or(bytes.len())
}

/// Decodes the first frame of a source, and answers the message's length. A message that has no room is refused, and so is one
/// whose frame has a byte more than there is room for the message and a code.
pub fn decode(source: &[u8], dest: &mut [u8]) -> Option<usize> {
    let start = source.iter().position(|&byte| byte != 0)?;
    let rest = &source[start..];
    let frame = &rest[..before_zero(rest)];
    if dest.len() < frame.len() - 1 {
        return super::runs::decode_frame(frame, dest);
    }
    let code = usize::from(frame[0]);
    if frame.len() > WINDOW + 1 || (code == 1 && frame.len() > 64) {
        // SAFETY: a frame has more bytes than its message, and that many have room.
        return unsafe { decode_bytes(frame.as_ptr(), frame.len(), dest.as_mut_ptr()) };
    }
    let n = frame.len() - 1;
    // SAFETY: what lies behind the code has room, and the walk stays within it.
    unsafe {
        if n <= 64 {
            move_few(frame.as_ptr().add(1), dest.as_mut_ptr(), n);
        } else {
            copy_nonoverlapping(frame.as_ptr().add(1), dest.as_mut_ptr(), n);
        }
        let whole = if code == 255 { n == WINDOW } else { put_zeros(dest.as_mut_ptr(), n, code - 1).0 == 0 };
        whole.then_some(n)
    }
}

/// Decodes the bytes before the first zero over themselves.
pub fn decode_in_place(buf: &mut [u8]) -> Option<usize> {
    let end = before_zero(buf);
    if end == 0 {
        return Some(0);
    }
    // SAFETY: a message is shorter than its frame, and each move is towards the front.
    unsafe { decode_bytes(buf.as_ptr(), end, buf.as_mut_ptr()) }
}
