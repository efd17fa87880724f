//! The C functions of the proved libraries, of this state and perhaps of an earlier commit.

/// What a call answers: whether it was done, and how many bytes it gave.
#[repr(C)]
#[derive(Clone, Copy)]
pub struct Answer {
    done: bool,
    count: usize,
}

/// What a record holds, its text and its list by their lengths and the list's sum.
#[repr(C)]
#[derive(Clone, Copy, Debug, Default, PartialEq)]
pub struct Parts {
    pub number: u32,
    pub big: u64,
    pub text_len: usize,
    pub has: bool,
    pub perhaps: u16,
    pub list_len: usize,
    pub sum: u64,
}

/// What was found in a stream: how many values, how many refusals, and a sum over the values.
#[repr(C)]
#[derive(Clone, Copy, Debug, Default, PartialEq)]
pub struct Found {
    pub values: u64,
    pub refused: u64,
    pub sum: u64,
}

type IntoBuffer = unsafe extern "C" fn(*const u8, usize, *mut u8, usize) -> Answer;
type InPlace = unsafe extern "C" fn(*mut u8, usize) -> Answer;
type IntoBufferFor = unsafe extern "C" fn(*const u8, usize, *mut u8, usize, u8) -> Answer;
type InPlaceFor = unsafe extern "C" fn(*mut u8, usize, u8) -> Answer;
type Within = unsafe extern "C" fn(*mut u8, usize, u8) -> usize;
type Length = unsafe extern "C" fn(*const u8, usize) -> usize;
type Before = unsafe extern "C" fn(*const u8, usize, u8) -> usize;
type Bytes = unsafe extern "C" fn(*const u8, usize, *mut Found);
type Stream = unsafe extern "C" fn(*const u8, usize, usize, *mut Found);
type Write = unsafe extern "C" fn(
    u32,
    u64,
    *const u8,
    usize,
    bool,
    u16,
    *const u16,
    usize,
    *mut u8,
    usize,
) -> Answer;
type Read = unsafe extern "C" fn(*const u8, usize, *mut Parts) -> bool;

/// The functions of one state of the libraries.
#[derive(Clone, Copy)]
pub struct Calls {
    pub name: &'static str,
    try_encode: IntoBuffer,
    push: IntoBuffer,
    decode: IntoBuffer,
    decode_in_place: InPlace,
    push_for: IntoBufferFor,
    decode_for: IntoBufferFor,
    decode_in_place_for: InPlaceFor,
    encode_in_place: Within,
    encoded_length: Length,
    before_sentinel: Before,
    fed: Bytes,
    messages: Stream,
    write: Write,
    read: Read,
    records: Stream,
}

pub fn answered(answer: Answer) -> Option<usize> {
    answer.done.then_some(answer.count)
}

/// Calls a C function that takes a record, with what else it takes before that and behind it.
macro_rules! of_record {
    ($call:expr, [$($before:expr),*], $record:expr, [$($behind:expr),*]) => {{
        let crate::data::Record { number, big, text, perhaps, list } = *$record;
        let (has, perhaps) = (perhaps.is_some(), perhaps.unwrap_or(0));
        let (call, text_at, list_at) = ($call, text.as_ptr(), list.as_ptr());
        // SAFETY: slices that don't overlap, each by its pointer and its length.
        crate::calls::answered(unsafe {
            call($($before,)* number, big, text_at, text.len(), has, perhaps, list_at, list.len() $(, $behind)*)
        })
    }};
}
pub(crate) use of_record;

fn into_buffer(call: IntoBuffer, source: &[u8], dest: &mut [u8]) -> Option<usize> {
    // SAFETY: two slices that don't overlap, each by its pointer and its length.
    answered(unsafe { call(source.as_ptr(), source.len(), dest.as_mut_ptr(), dest.len()) })
}

fn into_buffer_for(
    call: IntoBufferFor,
    source: &[u8],
    dest: &mut [u8],
    sentinel: u8,
) -> Option<usize> {
    // SAFETY: two slices that don't overlap, each by its pointer and its length.
    answered(unsafe {
        call(
            source.as_ptr(),
            source.len(),
            dest.as_mut_ptr(),
            dest.len(),
            sentinel,
        )
    })
}

fn stream(call: Stream, stream: &[u8], piece: usize) -> Found {
    let mut found = Found::default();
    // SAFETY: a slice by its pointer and its length, and a struct of C's layout.
    unsafe { call(stream.as_ptr(), stream.len(), piece, &mut found) };
    found
}

impl Calls {
    #[inline]
    pub fn try_encode(&self, source: &[u8], dest: &mut [u8]) -> Option<usize> {
        into_buffer(self.try_encode, source, dest)
    }

    /// `dest` must not be empty.
    #[inline]
    pub fn push(&self, source: &[u8], dest: &mut [u8]) -> Option<usize> {
        into_buffer(self.push, source, dest)
    }

    #[inline]
    pub fn decode(&self, source: &[u8], dest: &mut [u8]) -> Option<usize> {
        into_buffer(self.decode, source, dest)
    }

    #[inline]
    pub fn decode_in_place(&self, buf: &mut [u8]) -> Option<usize> {
        // SAFETY: a slice by its pointer and its length.
        answered(unsafe { (self.decode_in_place)(buf.as_mut_ptr(), buf.len()) })
    }

    /// As `push`, of frames for a sentinel.
    #[inline]
    pub fn push_for(&self, source: &[u8], dest: &mut [u8], sentinel: u8) -> Option<usize> {
        into_buffer_for(self.push_for, source, dest, sentinel)
    }

    #[inline]
    pub fn decode_for(&self, source: &[u8], dest: &mut [u8], sentinel: u8) -> Option<usize> {
        into_buffer_for(self.decode_for, source, dest, sentinel)
    }

    #[inline]
    pub fn decode_in_place_for(&self, buf: &mut [u8], sentinel: u8) -> Option<usize> {
        // SAFETY: a slice by its pointer and its length.
        answered(unsafe { (self.decode_in_place_for)(buf.as_mut_ptr(), buf.len(), sentinel) })
    }

    /// The frame of a message of n bytes, 254 at most, which stands behind the first byte of 255 or more.
    #[inline]
    pub fn encode_in_place(&self, buf: &mut [u8], n: usize) -> usize {
        assert!(n <= 254 && buf.len() >= 255);
        // SAFETY: an array by its pointer, with what the call asks for.
        unsafe { (self.encode_in_place)(buf.as_mut_ptr(), n, 0) }
    }

    #[inline]
    pub fn encoded_length(&self, source: &[u8]) -> usize {
        // SAFETY: a slice by its pointer and its length.
        unsafe { (self.encoded_length)(source.as_ptr(), source.len()) }
    }

    /// How many bytes come before the first zero.
    #[inline]
    pub fn before_zero(&self, bytes: &[u8]) -> usize {
        // SAFETY: a slice by its pointer and its length.
        unsafe { (self.before_sentinel)(bytes.as_ptr(), bytes.len(), 0) }
    }

    /// The messages of a stream, by a decoder that is fed each byte by itself.
    pub fn fed(&self, bytes: &[u8]) -> Found {
        let mut found = Found::default();
        // SAFETY: a slice by its pointer and its length, and a struct of C's layout.
        unsafe { (self.fed)(bytes.as_ptr(), bytes.len(), &mut found) };
        found
    }

    /// The messages of a stream, by a decoder.
    pub fn messages(&self, bytes: &[u8], piece: usize) -> Found {
        stream(self.messages, bytes, piece)
    }

    /// The records of a stream, by an accumulator.
    pub fn records(&self, bytes: &[u8], piece: usize) -> Found {
        stream(self.records, bytes, piece)
    }

    #[inline]
    pub fn write(&self, record: &crate::data::Record<'_>, room: &mut [u8]) -> Option<usize> {
        of_record!(self.write, [], record, [room.as_mut_ptr(), room.len()])
    }

    #[inline]
    pub fn read(&self, source: &[u8], parts: &mut Parts) -> bool {
        // SAFETY: a slice by its pointer and its length, and a struct of C's layout.
        unsafe { (self.read)(source.as_ptr(), source.len(), parts) }
    }
}

macro_rules! calls {
    ($module:ident, $name:literal, $prefix:literal) => {
        mod $module {
            use super::*;

            extern "C" {
                #[link_name = concat!($prefix, "cobs_c_try_encode")]
                fn try_encode(s: *const u8, n: usize, d: *mut u8, m: usize) -> Answer;
                #[link_name = concat!($prefix, "cobs_c_push")]
                fn push(s: *const u8, n: usize, d: *mut u8, m: usize) -> Answer;
                #[link_name = concat!($prefix, "cobs_c_decode")]
                fn decode(s: *const u8, n: usize, d: *mut u8, m: usize) -> Answer;
                #[link_name = concat!($prefix, "cobs_c_decode_in_place")]
                fn decode_in_place(b: *mut u8, n: usize) -> Answer;
                #[link_name = concat!($prefix, "cobs_c_push_with_sentinel")]
                fn push_for(s: *const u8, n: usize, d: *mut u8, m: usize, sentinel: u8) -> Answer;
                #[link_name = concat!($prefix, "cobs_c_decode_with_sentinel")]
                fn decode_for(s: *const u8, n: usize, d: *mut u8, m: usize, sentinel: u8)
                    -> Answer;
                #[link_name = concat!($prefix, "cobs_c_decode_in_place_with_sentinel")]
                fn decode_in_place_for(b: *mut u8, n: usize, sentinel: u8) -> Answer;
                #[link_name = concat!($prefix, "cobs_c_encode_in_place")]
                fn encode_in_place(b: *mut u8, n: usize, sentinel: u8) -> usize;
                #[link_name = concat!($prefix, "cobs_c_encoded_length")]
                fn encoded_length(s: *const u8, n: usize) -> usize;
                #[link_name = concat!($prefix, "cobs_c_before_sentinel")]
                fn before_sentinel(s: *const u8, n: usize, sentinel: u8) -> usize;
                #[link_name = concat!($prefix, "cobs_c_feed")]
                fn fed(s: *const u8, n: usize, found: *mut Found);
                #[link_name = concat!($prefix, "cobs_c_stream")]
                fn messages(s: *const u8, n: usize, piece: usize, found: *mut Found);
                #[link_name = concat!($prefix, "postcard_c_write")]
                fn write(
                    number: u32,
                    big: u64,
                    text: *const u8,
                    text_len: usize,
                    has: bool,
                    perhaps: u16,
                    list: *const u16,
                    list_len: usize,
                    room: *mut u8,
                    room_len: usize,
                ) -> Answer;
                #[link_name = concat!($prefix, "postcard_c_read")]
                fn read(s: *const u8, n: usize, parts: *mut Parts) -> bool;
                #[link_name = concat!($prefix, "postcard_c_stream")]
                fn records(s: *const u8, n: usize, piece: usize, found: *mut Found);
            }

            pub const CALLS: Calls = Calls {
                name: $name,
                try_encode,
                push,
                decode,
                decode_in_place,
                push_for,
                decode_for,
                decode_in_place_for,
                encode_in_place,
                encoded_length,
                before_sentinel,
                fed,
                messages,
                write,
                read,
                records,
            };
        }
    };
}

calls!(now, "ours", "");
#[cfg(before)]
calls!(earlier, "before", "before_");

/// The libraries as they stand.
pub const OURS: Calls = now::CALLS;

/// The libraries of this state, and of an earlier one if it is linked.
pub fn all() -> Vec<Calls> {
    vec![
        now::CALLS,
        #[cfg(before)]
        earlier::CALLS,
    ]
}
