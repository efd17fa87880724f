//! Messages as frames over a line that may break, by a static library whose code is proved: safe calls over its C functions.
//!
//! If a send of a *plain* message is interrupted, a prefix of it may be received as a message that nobody sent. So messages are *counted*
//! unless a call says `plain`: their length goes first, as `postcard` encodes a `&[u8]`, and no part of an interrupted one is received as
//! a message. A byte that changed on the line, or a start inside a frame, may still make another message: [`seal`] and [`unseal`] are
//! against that.
//!
//! No call allocates, waits or panics. The C functions require good pointers and that nothing written overlaps: Rust's slices are so.
//! This crate is tested, not proved.
//!
//! ```
//! use frames::{Event, Receiver, Sender};
//!
//! let mut sender = Sender::new(0);
//! let mut line = [0u8; 64];
//! let n = sender.send(b"first", &mut line).unwrap();
//! sender.sent(); // all of it went out
//! let m = n + sender.send(b"breaks off", &mut line[n..]).unwrap() - 4; // not all of this
//! let end = m + sender.send(b"behind it", &mut line[m..]).unwrap();
//!
//! let mut buffer = [0u8; 32];
//! let mut receiver = Receiver::new(&mut buffer, 0);
//! let mut heard = receiver.hear(&line[..end]);
//! assert_eq!(heard.next(), Some(Event::Message(b"first")));
//! assert_eq!(heard.next(), Some(Event::Damaged(9)));
//! assert_eq!(heard.next(), Some(Event::Message(b"behind it")));
//! assert_eq!(heard.next(), None);
//! ```
#![no_std]
#![warn(missing_docs)]

#[cfg(feature = "std")]
extern crate std;

mod raw;

use core::fmt;
use core::mem::MaybeUninit;

/// The buffer is too small.
#[derive(Clone, Copy, PartialEq, Eq, Debug)]
pub struct NoRoom;

/// Why a frame was refused.
#[derive(Clone, Copy, PartialEq, Eq, Debug)]
pub enum DecodeError {
    /// There is no byte but zeros.
    Empty,
    /// The bytes are no frame, after so many bytes of a message.
    Invalid(usize),
    /// The message doesn't fit.
    NoRoom,
}

impl fmt::Display for NoRoom {
    fn fmt(&self, f: &mut fmt::Formatter<'_>) -> fmt::Result {
        f.write_str("no room")
    }
}

impl fmt::Display for DecodeError {
    fn fmt(&self, f: &mut fmt::Formatter<'_>) -> fmt::Result {
        match self {
            DecodeError::Empty => f.write_str("no frame"),
            DecodeError::Invalid(decided) => {
                write!(f, "no frame, after {decided} bytes of a message")
            }
            DecodeError::NoRoom => f.write_str("no room"),
        }
    }
}

impl core::error::Error for NoRoom {}

impl core::error::Error for DecodeError {}

fn refused(status: u8, length: usize) -> DecodeError {
    match status {
        raw::NO_ROOM => DecodeError::NoRoom,
        raw::EMPTY => DecodeError::Empty,
        _ => DecodeError::Invalid(length),
    }
}

fn written(written: raw::Written) -> Result<usize, NoRoom> {
    if written.status == raw::OK {
        Ok(written.length)
    } else {
        Err(NoRoom)
    }
}

fn read(read: raw::Read) -> Result<(usize, usize), DecodeError> {
    if read.status == raw::OK {
        Ok((read.used, read.length))
    } else {
        Err(refused(read.status, read.length))
    }
}

/// The most bytes that the frame of a message of so many bytes has; `None` if no message is so long.
pub fn most_encoded_length(length: usize) -> Option<usize> {
    match unsafe { raw::frames_c_most_encoded_length(length) } {
        0 => None,
        most => Some(most),
    }
}

/// How many bytes the frame of a message has.
pub fn encoded_length(message: &[u8]) -> usize {
    unsafe { raw::frames_c_encoded_length(message.as_ptr(), message.len()) }
}

/// Writes the shortest frame of a message, each byte XORed with the sentinel, to the start of a buffer, and returns its length. Errors:
/// `NoRoom`, and the buffer is unchanged.
///
/// ```
/// let mut frame = [0u8; 5];
/// assert_eq!(frames::encode(&[10, 11, 0, 12], &mut frame, 0), Ok(5));
/// assert_eq!(frame, [3, 10, 11, 2, 12]);
/// ```
pub fn encode(message: &[u8], dest: &mut [u8], sentinel: u8) -> Result<usize, NoRoom> {
    written(unsafe {
        raw::frames_c_encode_with_sentinel(
            message.as_ptr(),
            message.len(),
            dest.as_mut_ptr(),
            dest.len(),
            sentinel,
        )
    })
}

/// Decodes the first frame of a source, after any zeros, to the start of `dest`. Returns how many bytes were used, and the message's length.
/// Errors: `Empty`, `Invalid`, `NoRoom`; `dest` may have changed then.
pub fn decode(source: &[u8], dest: &mut [u8]) -> Result<(usize, usize), DecodeError> {
    read(unsafe {
        raw::frames_c_decode(source.as_ptr(), source.len(), dest.as_mut_ptr(), dest.len())
    })
}

/// Decodes the bytes before the first sentinel, or all if there is none, to the start of `dest`, and returns the message's length. If there
/// are no bytes before the sentinel, the message has none: that is no error. Errors: `Invalid`, `NoRoom`; `dest` may have changed then.
///
/// ```
/// let mut message = [0u8; 4];
/// assert_eq!(frames::decode_with_sentinel(b"\x09bc\n", &mut message, 10), Ok(2));
/// assert_eq!(&message[..2], b"hi");
/// assert_eq!(frames::decode_with_sentinel(b"\n\x09bc\n", &mut message, 10), Ok(0));
/// ```
pub fn decode_with_sentinel(
    source: &[u8],
    dest: &mut [u8],
    sentinel: u8,
) -> Result<usize, DecodeError> {
    let read = unsafe {
        raw::frames_c_decode_with_sentinel(
            source.as_ptr(),
            source.len(),
            dest.as_mut_ptr(),
            dest.len(),
            sentinel,
        )
    };
    if read.status == raw::OK {
        Ok(read.length)
    } else {
        Err(refused(read.status, read.length))
    }
}

/// The same within one buffer. Returns how many bytes there were before the sentinel, and the length of the message, which is then at the
/// buffer's start. Errors: `Invalid`; the buffer may have changed then.
pub fn decode_in_place(buffer: &mut [u8], sentinel: u8) -> Result<(usize, usize), DecodeError> {
    read(unsafe { raw::frames_c_decode_in_place(buffer.as_mut_ptr(), buffer.len(), sentinel) })
}

/// The CRC-32 of bytes, as in Ethernet, gzip and PNG.
pub fn crc32(bytes: &[u8]) -> u32 {
    unsafe { raw::frames_c_crc32(bytes.as_ptr(), bytes.len()) }
}

/// Writes the CRC-32 of the first `length` bytes of a buffer after them, as four bytes, the lowest first, and returns how many are to be sent.
/// Errors: `NoRoom`, and the buffer is unchanged.
///
/// ```
/// let mut message = *b"hi____";
/// assert_eq!(frames::seal(&mut message, 2), Ok(6));
/// assert_eq!(frames::unseal(&message), Some(&b"hi"[..]));
/// message[0] ^= 1;
/// assert_eq!(frames::unseal(&message), None);
/// ```
pub fn seal(buffer: &mut [u8], length: usize) -> Result<usize, NoRoom> {
    written(unsafe { raw::frames_c_seal(buffer.as_mut_ptr(), buffer.len(), length) })
}

/// The message before its CRC-32; `None` if the last four bytes aren't that.
pub fn unseal(message: &[u8]) -> Option<&[u8]> {
    let sealed = unsafe { raw::frames_c_unseal(message.as_ptr(), message.len()) };
    if sealed.status == raw::OK {
        message.get(..sealed.length)
    } else {
        None
    }
}

/// What the bytes between two sentinels are.
#[derive(Clone, Copy, PartialEq, Eq, Debug)]
pub enum Event<'a> {
    /// A message.
    Message(&'a [u8]),
    /// So many bytes that are no frame, or whose message isn't counted.
    Damaged(usize),
    /// More bytes than the buffer has.
    TooLong,
}

/// Receives messages from a stream that comes in chunks, with at most as many bytes between two sentinels as its buffer has.
#[derive(Debug)]
pub struct Receiver<'a> {
    state: raw::Receiver,
    buffer: &'a mut [u8],
    plain: bool,
}

impl<'a> Receiver<'a> {
    /// Of counted messages, in frames that end in this byte.
    pub fn new(buffer: &'a mut [u8], sentinel: u8) -> Receiver<'a> {
        Receiver {
            state: unsafe { raw::frames_c_receiver(sentinel) },
            buffer,
            plain: false,
        }
    }

    /// Of plain messages.
    pub fn plain(buffer: &'a mut [u8], sentinel: u8) -> Receiver<'a> {
        Receiver {
            plain: true,
            ..Receiver::new(buffer, sentinel)
        }
    }

    fn event(&self, event: raw::Event) -> Option<Event<'_>> {
        match event.kind {
            raw::MESSAGE => Some(Event::Message(
                self.buffer
                    .get(event.start..)
                    .and_then(|rest| rest.get(..event.length))
                    .unwrap_or(&[]),
            )),
            raw::DAMAGED => Some(Event::Damaged(event.stretch)),
            raw::TOO_LONG => Some(Event::TooLong),
            _ => None,
        }
    }

    /// Takes bytes up to the first event, and returns how many, and that event, if any. Push the rest again.
    #[must_use = "the bytes after the first event aren't taken: push them again"]
    pub fn push(&mut self, bytes: &[u8]) -> (usize, Option<Event<'_>>) {
        let push = if self.plain {
            raw::frames_c_push_plain
        } else {
            raw::frames_c_push
        };
        let event = unsafe {
            push(
                &mut self.state,
                self.buffer.as_mut_ptr(),
                self.buffer.len(),
                bytes.as_ptr(),
                bytes.len(),
            )
        };
        (event.used, self.event(event))
    }

    /// Takes one byte, for an interrupt handler.
    pub fn push_byte(&mut self, byte: u8) -> Option<Event<'_>> {
        let push = if self.plain {
            raw::frames_c_push_byte_plain
        } else {
            raw::frames_c_push_byte
        };
        let mut event = MaybeUninit::<raw::Event>::uninit();
        let kind = unsafe {
            push(
                &mut self.state,
                self.buffer.as_mut_ptr(),
                self.buffer.len(),
                byte,
                event.as_mut_ptr(),
            )
        };
        if kind == raw::MORE {
            return None;
        }
        // it was told, since the receiver stands over its own buffer
        let event = unsafe { event.assume_init() };
        self.event(event)
    }

    /// The events of a chunk, one after another. A message is borrowed until the next call of `next`, so this isn't an `Iterator`, as
    /// [`Receiver::events`] is: `while let Some(event) = heard.next()` goes over it. All bytes of the chunk are taken at the latest when this is
    /// dropped, and the events that weren't asked for are lost.
    pub fn hear<'r, 'p>(&'r mut self, piece: &'p [u8]) -> Heard<'r, 'a, 'p> {
        Heard {
            receiver: self,
            rest: piece,
        }
    }

    /// An iterator over the events of a chunk. Each message is copied to `room`. Errors: `NoRoom`, if that has fewer bytes than are begun and
    /// than the chunk has together; nothing is taken then. All bytes of the chunk are taken at the latest when the iterator is dropped, and
    /// the events that weren't asked for are lost.
    ///
    /// ```
    /// use frames::{Event, Receiver};
    ///
    /// let line = b"\x00\x04\x02hi\x00\x09?\x00\x04\x02yo\x00";
    /// let (mut buffer, mut room) = ([0u8; 8], [0u8; 32]);
    /// let mut receiver = Receiver::new(&mut buffer, 0);
    /// let messages = receiver.events(line, &mut room).unwrap().filter_map(|event| match event {
    ///     Event::Message(message) => Some(message),
    ///     _ => None,
    /// });
    /// assert!(messages.eq([b"hi", b"yo"]));
    /// ```
    pub fn events<'r, 'p, 'm>(
        &'r mut self,
        piece: &'p [u8],
        room: &'m mut [u8],
    ) -> Result<Events<'r, 'a, 'p, 'm>, NoRoom> {
        if room.len().saturating_sub(self.begun()) < piece.len() {
            return Err(NoRoom);
        }
        Ok(Events {
            heard: self.hear(piece),
            room,
        })
    }

    /// Calls `hear` with each event of a chunk. If `hear` panics, all bytes of the chunk are taken too, and the events of the rest are lost.
    pub fn push_all(&mut self, piece: &[u8], mut hear: impl FnMut(Event<'_>)) {
        let mut all = self.hear(piece);
        while let Some(event) = all.next() {
            hear(event);
        }
    }

    /// How many bytes have come since the last sentinel; 0 after `TooLong`.
    pub fn begun(&self) -> usize {
        unsafe { raw::frames_c_begun(&self.state) }
    }

    /// Ends the stream, and begins a new one. Returns whether it ended inside a frame.
    pub fn finish(&mut self) -> bool {
        unsafe { raw::frames_c_finish(&mut self.state) }
    }

    /// Calls `hear` with each event of a source, to its end. Returns whether it ended inside a frame. Errors: what the source fails with; the
    /// receiver has taken what was read before, and can listen again.
    ///
    /// ```
    /// use frames::{Event, Receiver, Source};
    ///
    /// struct Wire<'a>(&'a [u8]);
    /// impl Source for Wire<'_> {
    ///     type Error = core::convert::Infallible;
    ///     fn read(&mut self, room: &mut [u8]) -> Result<usize, Self::Error> {
    ///         let n = room.len().min(self.0.len());
    ///         room[..n].copy_from_slice(&self.0[..n]);
    ///         self.0 = &self.0[n..];
    ///         Ok(n)
    ///     }
    /// }
    /// let mut buffer = [0u8; 16];
    /// let mut receiver = Receiver::new(&mut buffer, 0);
    /// let mut count = 0;
    /// let cut = receiver.listen(&mut Wire(b"\x00\x04\x02hi\x00\x07"), &mut [0; 3], |event| {
    ///     assert_eq!(event, Event::Message(b"hi"));
    ///     count += 1;
    /// });
    /// assert_eq!((cut, count), (Ok(true), 1));
    /// ```
    pub fn listen<S: Source>(
        &mut self,
        source: &mut S,
        room: &mut [u8],
        mut hear: impl FnMut(Event<'_>),
    ) -> Result<bool, S::Error> {
        let mut one = [0u8; 1]; // a read into no room would look like the end
        let room = if room.is_empty() { &mut one[..] } else { room };
        loop {
            let n = source.read(room)?.min(room.len());
            if n == 0 {
                return Ok(self.finish());
            }
            self.push_all(&room[..n], &mut hear);
        }
    }
}

/// What gives bytes, such as a serial port: a trait of one method, as `embedded-io`'s `Read`, to implement for a port of your own. What
/// `std::io` reads is one by [`Io`].
pub trait Source {
    /// Why it failed.
    type Error;

    /// Reads what is there to the start of `room`, at least a byte, and returns how many; 0 at the end.
    fn read(&mut self, room: &mut [u8]) -> Result<usize, Self::Error>;
}

/// What takes bytes, such as a serial port: a trait of one method, as `embedded-io`'s `Write`, to implement for a port of your own. What
/// `std::io` writes is one by [`Io`].
pub trait Sink {
    /// Why it failed.
    type Error;

    /// Takes all of these bytes, or fails.
    fn write_all(&mut self, bytes: &[u8]) -> Result<(), Self::Error>;
}

impl<S: Source + ?Sized> Source for &mut S {
    type Error = S::Error;

    fn read(&mut self, room: &mut [u8]) -> Result<usize, Self::Error> {
        (**self).read(room)
    }
}

impl<S: Sink + ?Sized> Sink for &mut S {
    type Error = S::Error;

    fn write_all(&mut self, bytes: &[u8]) -> Result<(), Self::Error> {
        (**self).write_all(bytes)
    }
}

/// The events of a chunk, one after another. Dropping it takes the rest of the chunk.
#[must_use = "the events that aren't asked for are lost"]
#[derive(Debug)]
pub struct Heard<'r, 'a, 'p> {
    receiver: &'r mut Receiver<'a>,
    rest: &'p [u8],
}

impl Heard<'_, '_, '_> {
    /// The next event; none once all bytes were taken.
    #[allow(clippy::should_implement_trait)]
    pub fn next(&mut self) -> Option<Event<'_>> {
        let (used, event) = self.receiver.push(self.rest);
        self.rest = self.rest.get(used..).unwrap_or(&[]);
        event
    }
}

/// Takes what wasn't asked for. Else the next push could begin inside a frame, and its end be received as a message that nobody sent.
impl Drop for Heard<'_, '_, '_> {
    fn drop(&mut self) {
        while self.next().is_some() {}
    }
}

/// The events of a chunk, as an iterator. Dropping it takes the rest of the chunk.
#[must_use = "the events that aren't asked for are lost"]
#[derive(Debug)]
pub struct Events<'r, 'a, 'p, 'm> {
    heard: Heard<'r, 'a, 'p>,
    room: &'m mut [u8],
}

impl<'m> Iterator for Events<'_, '_, '_, 'm> {
    type Item = Event<'m>;

    fn next(&mut self) -> Option<Event<'m>> {
        Some(match self.heard.next()? {
            Event::Message(message) => {
                // there is room: a message is shorter than its frame, and their frames lie in what was begun and the piece
                let room = core::mem::take(&mut self.room);
                let (place, rest) = room.split_at_mut(message.len().min(room.len()));
                self.room = rest;
                place.copy_from_slice(&message[..place.len()]);
                Event::Message(place)
            }
            Event::Damaged(length) => Event::Damaged(length),
            Event::TooLong => Event::TooLong,
        })
    }
}

/// Why a message didn't go out.
#[derive(Clone, Copy, PartialEq, Eq, Debug)]
pub enum SendError<E> {
    /// The room is too small: nothing was written.
    NoRoom,
    /// The line failed: the next send begins with a sentinel.
    Line(E),
}

impl<E: fmt::Display> fmt::Display for SendError<E> {
    fn fmt(&self, f: &mut fmt::Formatter<'_>) -> fmt::Result {
        match self {
            SendError::NoRoom => f.write_str("no room"),
            SendError::Line(error) => write!(f, "the line failed: {error}"),
        }
    }
}

impl<E: core::error::Error + 'static> core::error::Error for SendError<E> {
    fn source(&self) -> Option<&(dyn core::error::Error + 'static)> {
        match self {
            SendError::NoRoom => None,
            SendError::Line(error) => Some(error),
        }
    }
}

/// What std reads or writes, as a [`Source`] or a [`Sink`]: a serial port, a socket, a file. A read that is interrupted is made again,
/// and a write is flushed. With the feature `std`, which is on by default.
///
/// ```
/// use frames::{Event, Io, Receiver, Sender};
///
/// # fn main() -> Result<(), Box<dyn std::error::Error>> {
/// let mut line = Vec::new();
/// Sender::new(0).send_over(b"hi", &mut [0; 16], &mut Io(&mut line))?;
/// let mut buffer = [0u8; 16];
/// let mut receiver = Receiver::new(&mut buffer, 0);
/// receiver.listen(&mut Io(&line[..]), &mut [0; 64], |event| assert_eq!(event, Event::Message(b"hi")))?;
/// # Ok(())
/// # }
/// ```
#[cfg(feature = "std")]
#[derive(Debug)]
pub struct Io<T>(pub T);

#[cfg(feature = "std")]
impl<T: std::io::Read> Source for Io<T> {
    type Error = std::io::Error;

    fn read(&mut self, room: &mut [u8]) -> std::io::Result<usize> {
        loop {
            match self.0.read(room) {
                Err(error) if error.kind() == std::io::ErrorKind::Interrupted => {}
                read => return read,
            }
        }
    }
}

#[cfg(feature = "std")]
impl<T: std::io::Write> Sink for Io<T> {
    type Error = std::io::Error;

    fn write_all(&mut self, bytes: &[u8]) -> std::io::Result<()> {
        self.0.write_all(bytes)?;
        self.0.flush()
    }
}

/// Makes the bytes to write for each message.
#[derive(Debug)]
pub struct Sender {
    state: raw::Sender,
    plain: bool,
}

impl Sender {
    /// Of counted messages. It hasn't written anything, and so begins with a sentinel.
    pub fn new(sentinel: u8) -> Sender {
        Sender {
            state: unsafe { raw::frames_c_sender(sentinel) },
            plain: false,
        }
    }

    /// Of plain messages.
    pub fn plain(sentinel: u8) -> Sender {
        Sender {
            plain: true,
            ..Sender::new(sentinel)
        }
    }

    /// Writes the bytes of one send to the start of a buffer, and returns how many. Call `sent` once all of them went out; if they didn't, the
    /// next send begins with a sentinel. Errors: `NoRoom`, and neither the sender nor the buffer has changed.
    ///
    /// ```
    /// let mut out = [0u8; 8];
    /// let n = frames::Sender::new(0).send(b"hi", &mut out).unwrap();
    /// assert_eq!(&out[..n], b"\x00\x04\x02hi\x00"); // a `&[u8]` of postcard's, in a frame
    /// ```
    pub fn send(&mut self, message: &[u8], dest: &mut [u8]) -> Result<usize, NoRoom> {
        let send = if self.plain {
            raw::frames_c_send_plain
        } else {
            raw::frames_c_send
        };
        written(unsafe {
            send(
                &mut self.state,
                message.as_ptr(),
                message.len(),
                dest.as_mut_ptr(),
                dest.len(),
            )
        })
    }

    /// Says that all bytes of the last send went out.
    pub fn sent(&mut self) {
        unsafe { raw::frames_c_sent(&mut self.state) }
    }

    /// Sends a message over a line. `room` holds its frame meanwhile. Errors: `NoRoom`, if the frame doesn't fit, and nothing was written;
    /// `Line`, what the line failed with, and the next send begins with a sentinel.
    pub fn send_over<S: Sink>(
        &mut self,
        message: &[u8],
        room: &mut [u8],
        line: &mut S,
    ) -> Result<(), SendError<S::Error>> {
        let n = self
            .send(message, room)
            .map_err(|NoRoom| SendError::NoRoom)?;
        line.write_all(&room[..n]).map_err(SendError::Line)?;
        self.sent();
        Ok(())
    }
}
