//! By vectors, of 16 or 32 bytes (`lanes`), in unsafe code; each byte is loaded once. A message is copied 64 bytes at a time, or a
//! block of 254, and each zero that the copy marks becomes a code. A frame is copied 254 bytes at a time, and a walk from code to code
//! puts the zeros.
use super::lanes::{are_clear, before_zero as zero_in, line_of, load_64, marks_64, move_all, move_few, store_64, Line};

/// Where the lines of a block of 254 bytes begin: the last two overlap by two bytes.
const LINES: [usize; 4] = [0, 64, 128, 190];

#[inline(always)]
unsafe fn load_block(from: *const u8) -> [Line; 4] {
    LINES.map(|at| load_64(from.add(at)))
}

#[inline(always)]
unsafe fn store_block(to: *mut u8, lines: [Line; 4]) {
    for (at, line) in LINES.into_iter().zip(lines) {
        store_64(to.add(at), line);
    }
}

/// Writes codes at the zeros that are marked from a place on, and returns where the last code is.
#[inline(always)]
unsafe fn put_codes(dest: *mut u8, mut code_at: usize, place: usize, mut zeros: u64) -> usize {
    if zeros == u64::MAX {
        *dest.add(code_at) = (place - code_at) as u8;
        store_64(dest.add(place), line_of(1));
        return place + 63;
    }
    while zeros != 0 {
        let zero = place + zeros.trailing_zeros() as usize;
        *dest.add(code_at) = (zero - code_at) as u8;
        code_at = zero;
        zeros &= zeros - 1;
    }
    code_at
}

/// Writes the shortest frame, and returns its length. `dest` must have the space that any message of this length takes.
pub fn encode(source: &[u8], dest: &mut [u8]) -> usize {
    let len = source.len();
    assert!(dest.len() >= len + len.div_ceil(254).max(1));
    // SAFETY: there is space, and 64 bytes are stored only if as many are left.
    unsafe { encode_to(source.as_ptr(), len, dest.as_mut_ptr()) }
}

/// Copies 254 bytes, with codes in place of zeros, and returns where the last code is.
#[inline(always)]
unsafe fn encode_block(from: *const u8, dest: *mut u8, mut code_at: usize, at: usize) -> usize {
    let lines = load_block(from);
    store_block(dest.add(at), lines);
    if are_clear(lines) {
        return code_at;
    }
    for (i, line) in lines.into_iter().enumerate() {
        let zeros = marks_64(line, 0) & if i == 2 { (1 << 62) - 1 } else { u64::MAX };
        code_at = put_codes(dest, code_at, at + LINES[i], zeros);
    }
    code_at
}

/// Copies up to 64 bytes, and marks the zeros.
#[inline(always)]
unsafe fn copy_line(from: *const u8, to: *mut u8, n: usize) -> u64 {
    if n < 64 {
        return move_few::<true>(from, to, n);
    }
    let line = load_64(from);
    store_64(to, line);
    marks_64(line, 0)
}

unsafe fn encode_to(source: *const u8, len: usize, dest: *mut u8) -> usize {
    let (mut from, mut code_at, mut at) = (0, 0, 1);
    while from < len {
        let mut open = 255 - (at - code_at);
        if open == 0 {
            *dest.add(code_at) = 255;
            code_at = at;
            at += 1;
            open = 254;
        }
        let left = len - from;
        let count = if open == 254 && left >= 254 {
            code_at = encode_block(source.add(from), dest, code_at, at);
            254
        } else {
            let n = left.min(64);
            let zeros = copy_line(source.add(from), dest.add(at), n);
            if n > open && zeros & ((1 << open) - 1) == 0 {
                // the block is full before these bytes end; what was stored after it is written again
                open
            } else {
                code_at = put_codes(dest, code_at, at, zeros);
                n
            }
        };
        from += count;
        at += count;
    }
    *dest.add(code_at) = (at - code_at) as u8;
    at
}

/// Makes the frame of a message of n bytes, 254 at most, where it is after the first byte, and returns its length.
pub fn encode_in_place(buf: &mut [u8], n: usize) -> usize {
    assert!(n <= 254 && n < buf.len());
    let (mut code_at, mut at) = (0, 1);
    let bytes = buf.as_mut_ptr();
    // SAFETY: the message is in the buffer.
    unsafe {
        while n + 1 - at >= 64 {
            let zeros = marks_64(load_64(bytes.add(at)), 0);
            code_at = put_codes(bytes, code_at, at, zeros);
            at += 64;
        }
        let zeros = move_few::<false>(bytes.add(at), std::ptr::null_mut(), n + 1 - at);
        code_at = put_codes(bytes, code_at, at, zeros);
        *bytes.add(code_at) = (n + 1 - code_at) as u8;
    }
    n + 1
}

/// The length of the shortest frame.
pub fn encoded_length(source: &[u8]) -> usize {
    let (n, bytes) = (source.len(), source.as_ptr());
    if n < 255 {
        return n + 1;
    }
    let (mut at, mut run, mut full) = (0, 0, 0);
    while at < n {
        let count = (n - at).min(64);
        // SAFETY: so many bytes are left.
        let zeros = unsafe {
            if count == 64 { marks_64(load_64(bytes.add(at)), 0) } else { move_few::<false>(bytes.add(at), std::ptr::null_mut(), count) }
        };
        if zeros == 0 {
            run += count;
        } else {
            full += (run + zeros.trailing_zeros() as usize) / 254;
            run = count - 1 - (63 - zeros.leading_zeros() as usize);
        }
        at += count;
    }
    n + 1 + full + run.saturating_sub(1) / 254
}

/// How many bytes come before the first zero.
pub fn before_zero(bytes: &[u8]) -> usize {
    // SAFETY: the bytes of a slice.
    unsafe { zero_in(bytes.as_ptr(), bytes.len()) }
}

/// Where the first zero is.
#[inline(always)]
pub fn first_zero(bytes: &[u8]) -> Option<usize> {
    // SAFETY: the bytes of a slice.
    let at = unsafe { zero_in(bytes.as_ptr(), bytes.len()) };
    (at < bytes.len()).then_some(at)
}

/// Puts zeros at the codes of so many bytes that were copied, the first code after `left` of them. Returns how many bytes are left of
/// the last block then, and whether it is a full one.
#[inline(always)]
unsafe fn put_zeros(bytes: *mut u8, count: usize, left: usize) -> (usize, bool) {
    let (mut at, mut code) = (left, 0);
    while at < count {
        code = usize::from(*bytes.add(at));
        *bytes.add(at) = 0;
        at += code;
    }
    (at - count, code == 255)
}

/// Copies up to `count` bytes to the front or elsewhere, at most to the first zero, and returns how many come before it. With `KEEP`
/// nothing after these is written.
#[inline(always)]
unsafe fn copy_window<const KEEP: bool>(from: *const u8, to: *mut u8, count: usize) -> usize {
    if count == 254 {
        let lines = load_block(from);
        let clear = are_clear(lines);
        if clear || !KEEP {
            store_block(to, lines);
        }
        if clear {
            return 254;
        }
    }
    if KEEP {
        let count = zero_in(from, count);
        move_all(from, to, count);
        return count;
    }
    let mut done = 0;
    while count - done >= 64 {
        let line = load_64(from.add(done));
        store_64(to.add(done), line);
        let zeros = marks_64(line, 0);
        if zeros != 0 {
            return done + zeros.trailing_zeros() as usize;
        }
        done += 64;
    }
    let zeros = move_few::<true>(from.add(done), to.add(done), count - done);
    if zeros == 0 { count } else { done + zeros.trailing_zeros() as usize }
}

/// Decodes what comes before the first zero of n bytes, which isn't empty, to a place before it or elsewhere with n - 1 bytes of space.
#[inline(always)]
unsafe fn decode_to<const KEEP: bool>(frame: *const u8, n: usize, to: *mut u8) -> Option<usize> {
    let (mut left, mut full) = (usize::from(*frame) - 1, *frame == 255);
    let (mut from, mut at) = (1, 0);
    loop {
        if full && left == 0 && from < n {
            let code = *frame.add(from);
            if code == 0 {
                return Some(at);
            }
            (left, full) = (usize::from(code) - 1, code == 255);
            from += 1;
        }
        let most = if full { left } else { 254 };
        let count = copy_window::<KEEP>(frame.add(from), to.add(at), (n - from).min(most));
        if full {
            left -= count;
        } else {
            (left, full) = put_zeros(to.add(at), count, left);
        }
        from += count;
        at += count;
        if from == n || count < most {
            return (left == 0).then_some(at);
        }
    }
}

/// Decodes the first frame of a source, and returns the message's length.
pub fn decode(source: &[u8], dest: &mut [u8]) -> Option<usize> {
    let start = source.iter().position(|&byte| byte != 0)?;
    let rest = &source[start..];
    if dest.len() < rest.len() - 1 {
        return super::runs::decode(rest, dest);
    }
    // SAFETY: a frame has more bytes than its message, and that many have space.
    unsafe { decode_to::<false>(rest.as_ptr(), rest.len(), dest.as_mut_ptr()) }
}

/// Decodes a frame, which has no zero and isn't empty.
#[inline]
pub fn decode_frame(frame: &[u8], dest: &mut [u8]) -> Option<usize> {
    if dest.len() < frame.len() - 1 {
        return super::runs::decode_frame(frame, dest);
    }
    // SAFETY: a frame has more bytes than its message, and that many have space.
    unsafe { decode_to::<false>(frame.as_ptr(), frame.len(), dest.as_mut_ptr()) }
}

/// Decodes the bytes before the first zero over themselves; those after it stay.
pub fn decode_in_place(buf: &mut [u8]) -> Option<usize> {
    if buf.is_empty() || buf[0] == 0 {
        return Some(0);
    }
    // SAFETY: a message is shorter than its frame, and each move is towards the front.
    unsafe { decode_to::<true>(buf.as_ptr(), buf.len(), buf.as_mut_ptr()) }
}

/// How many bytes of a frame and of a message a decoder of streams takes at most.
pub const LIMIT: usize = 512;

/// Decodes a stream in chunks, 64 bytes at a time, into a buffer, and keeps its state between chunks.
pub struct Decoder {
    dest: [u8; LIMIT + 64],
    at: usize,
    /// Bytes that are left of the block, and whether it is a full one.
    left: usize,
    full: bool,
    begun: bool,
}

impl Decoder {
    pub fn new() -> Decoder {
        Decoder { dest: [0; LIMIT + 64], at: 0, left: 0, full: false, begun: false }
    }

    /// Takes a chunk, and hands on each message that ends in it, None for what is none.
    #[inline(always)]
    pub fn take(&mut self, chunk: &[u8], mut each: impl FnMut(Option<&[u8]>)) {
        let mut rest = chunk;
        while let [first, after @ ..] = rest {
            if !self.begun || self.full && self.left == 0 && *first != 0 {
                self.begin(*first);
                rest = after;
                continue;
            }
            // SAFETY: up to 64 bytes are loaded of those that are there, and 64 have space.
            let (count, ends) = unsafe { self.copy(rest) };
            rest = &rest[count..];
            if ends {
                each((self.left == 0 && self.at <= LIMIT).then(|| &self.dest[..self.at]));
                self.begun = false;
            }
        }
    }

    /// Takes a code that begins a frame, or a block after a full one; a zero between frames is skipped.
    #[inline(always)]
    fn begin(&mut self, code: u8) {
        if !self.begun {
            self.at = 0;
            self.begun = code != 0;
        }
        self.left = usize::from(code).wrapping_sub(1);
        self.full = code == 255;
    }

    /// Takes up to 64 bytes, at most to the end of a full block. Returns how many, with the zero that ends the frame, and whether there
    /// is one.
    #[inline(always)]
    unsafe fn copy(&mut self, rest: &[u8]) -> (usize, bool) {
        // a message that has no space is written over itself
        let to = self.dest.as_mut_ptr().add(self.at.min(LIMIT));
        let n = rest.len().min(64);
        let zeros = copy_line(rest.as_ptr(), to, n);
        let mut count = if zeros == 0 { n } else { zeros.trailing_zeros() as usize };
        let mut ends = zeros != 0;
        if self.full {
            ends &= count <= self.left;
            count = count.min(self.left);
            self.left -= count;
        } else {
            (self.left, self.full) = put_zeros(to, count, self.left);
        }
        self.at += count;
        (count + usize::from(ends), ends)
    }
}

/// Keeps a stream's bytes as they come, and decodes each frame in place once its zero is there: for chunks of a few bytes.
pub struct Keeper {
    held: [u8; LIMIT + 64 + 1],
    len: usize,
}

impl Keeper {
    pub fn new() -> Keeper {
        Keeper { held: [0; LIMIT + 64 + 1], len: 0 }
    }

    /// Takes a chunk, and hands on each message that ends in it, None for what is none.
    #[inline(always)]
    pub fn take(&mut self, chunk: &[u8], mut each: impl FnMut(Option<&[u8]>)) {
        let mut len = self.len;
        if chunk.len() > 64 || len > LIMIT {
            return self.take_checked(chunk, each);
        }
        for &byte in chunk {
            // SAFETY: there is space for 64 bytes after the limit.
            unsafe { *self.held.get_unchecked_mut(len) = byte };
            if byte != 0 {
                len += 1;
            } else if len > 0 {
                each(self.message(len));
                len = 0;
            }
        }
        self.len = len;
    }

    /// The same for any chunk, also of a frame that has no space, which is written over itself.
    #[cold]
    #[inline(never)]
    fn take_checked(&mut self, chunk: &[u8], mut each: impl FnMut(Option<&[u8]>)) {
        for &byte in chunk {
            if byte != 0 {
                self.held[self.len.min(LIMIT)] = byte;
                self.len += 1;
            } else if self.len > 0 {
                let len = std::mem::take(&mut self.len);
                each(self.message(len));
            }
        }
    }

    #[inline(never)]
    fn message(&mut self, len: usize) -> Option<&[u8]> {
        if len > LIMIT {
            return None;
        }
        let bytes = self.held.as_mut_ptr();
        // SAFETY: a message is shorter than its frame, and each move is towards the front.
        let count = unsafe { decode_to::<false>(bytes, len, bytes) }?;
        Some(&self.held[..count])
    }
}
