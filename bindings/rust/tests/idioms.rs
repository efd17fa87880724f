//! What a Rust user expects of the types: `Debug`, errors that `?` takes, and `std::io` over the two traits.
#![cfg(feature = "std")]
use frames::{DecodeError, Event, Io, NoRoom, Receiver, SendError, Sender, Sink, Source};
use std::error::Error;
use std::io::{self, Cursor, Read, Write};

#[derive(Debug)]
struct Port<'a> {
    receiver: Receiver<'a>,
    sender: Sender,
}

/// A line that is interrupted once, reads a byte at a time, and fails after so many written bytes.
struct Slow {
    to_read: Cursor<Vec<u8>>,
    interrupted: bool,
    written: Vec<u8>,
    most: usize,
    flushed: bool,
}

impl Read for Slow {
    fn read(&mut self, room: &mut [u8]) -> io::Result<usize> {
        if !std::mem::replace(&mut self.interrupted, true) {
            return Err(io::ErrorKind::Interrupted.into());
        }
        let most = room.len().min(1);
        self.to_read.read(&mut room[..most])
    }
}

impl Write for Slow {
    fn write(&mut self, bytes: &[u8]) -> io::Result<usize> {
        let taken = bytes.len().min(2).min(self.most - self.written.len());
        self.written.extend_from_slice(&bytes[..taken]);
        Ok(taken)
    }

    fn flush(&mut self) -> io::Result<()> {
        self.flushed = true;
        Ok(())
    }
}

fn line(most: usize) -> Slow {
    Slow {
        to_read: Cursor::new(b"\x00\x04\x02hi\x00\x07".to_vec()),
        interrupted: false,
        written: Vec::new(),
        most,
        flushed: false,
    }
}

#[test]
fn std_reads_and_writes() -> Result<(), Box<dyn Error>> {
    let mut buffer = [0u8; 16];
    let mut port = Port {
        receiver: Receiver::new(&mut buffer, 0),
        sender: Sender::new(0),
    };
    assert!(format!("{port:?}").starts_with("Port { receiver: Receiver {"));
    let (mut over, mut heard) = (Io(line(100)), Vec::new());
    let is_cut = port.receiver.listen(&mut over, &mut [0; 64], |event| {
        heard.push(format!("{event:?}"))
    })?;
    assert!(is_cut && heard == ["Message([104, 105])"]);
    port.sender.send_over(b"hi", &mut [0; 16], &mut over)?;
    assert!(over.0.flushed && over.0.written == b"\x00\x04\x02hi\x00");
    Ok(())
}

/// Whoever asks for one event of a chunk loses the others, and no more: the end of a frame isn't received as a message.
#[test]
fn what_is_not_asked_for_is_lost() {
    let (mut out, mut buffer, mut room) = ([0u8; 64], [0u8; 32], [0u8; 64]);
    let mut line = b"\x00\x04\x02hi\x00".to_vec();
    let n = Sender::new(0).send(b"\x09\x09\x03\x01X", &mut out).unwrap();
    line.extend_from_slice(&out[1..n]);
    for at in 6..line.len() {
        for by in ["hear", "events", "nothing"] {
            let mut receiver = Receiver::new(&mut buffer, 0);
            match by {
                "hear" => assert!(receiver.hear(&line[..at]).next().is_some()),
                "events" => {
                    let mut events = receiver.events(&line[..at], &mut room).unwrap();
                    assert_eq!(events.next(), Some(Event::Message(b"hi")));
                }
                _ => drop(receiver.hear(&line[..at])),
            }
            let mut heard = receiver.hear(&line[at..]);
            assert_eq!(
                heard.next(),
                Some(Event::Message(b"\x09\x09\x03\x01X")),
                "{by} {at}"
            );
            assert_eq!(heard.next(), None);
        }
    }
}

#[test]
fn failures_are_errors() -> Result<(), Box<dyn Error>> {
    let mut sender = Sender::new(0);
    let failed = sender.send_over(b"hi", &mut [0; 16], &mut Io(line(3)));
    let error: Box<dyn Error> = failed.unwrap_err().into();
    assert!(error.source().is_some() && error.to_string().starts_with("the line failed: "));
    let error: Box<dyn Error> = sender
        .send_over(b"hi", &mut [0; 3], &mut Io(line(9)))
        .unwrap_err()
        .into();
    assert!(error.source().is_none() && error.to_string() == "no room");
    // after both a sentinel is in front again
    let mut over = Io(Vec::new());
    sender.send_over(b"hi", &mut [0; 16], &mut over)?;
    assert_eq!(over.0, b"\x00\x04\x02hi\x00");
    let errors: [Box<dyn Error>; 3] = [
        NoRoom.into(),
        DecodeError::Empty.into(),
        SendError::Line(io::Error::other("gone")).into(),
    ];
    assert_eq!(
        errors.map(|it| it.to_string()),
        ["no room", "no frame", "the line failed: gone"]
    );
    Ok(())
}

/// A port of one's own, lent and behind a `dyn`, as a driver hands it on.
struct Loop(Vec<u8>);

impl Source for Loop {
    type Error = core::convert::Infallible;

    fn read(&mut self, room: &mut [u8]) -> Result<usize, Self::Error> {
        let count = room.len().min(self.0.len());
        room[..count].copy_from_slice(&self.0[..count]);
        self.0.drain(..count);
        Ok(count)
    }
}

impl Sink for Loop {
    type Error = core::convert::Infallible;

    fn write_all(&mut self, bytes: &[u8]) -> Result<(), Self::Error> {
        self.0.extend_from_slice(bytes);
        Ok(())
    }
}

#[test]
fn a_port_of_ones_own() {
    let mut port = Loop(Vec::new());
    let mut sink: &mut dyn Sink<Error = core::convert::Infallible> = &mut port;
    Sender::new(0)
        .send_over(b"one", &mut [0; 16], &mut sink)
        .unwrap();
    let mut source: &mut dyn Source<Error = core::convert::Infallible> = &mut port;
    let (mut buffer, mut count) = ([0u8; 16], 0);
    let cut = Receiver::new(&mut buffer, 0).listen(&mut source, &mut [0; 3], |event| {
        assert_eq!(event, Event::Message(b"one"));
        count += 1;
    });
    assert_eq!((cut, count), (Ok(false), 1));
}

#[test]
fn a_panic_loses_no_place() {
    let (mut buffer, mut line, message) = ([0u8; 32], [0u8; 16], b"\x09\x09\x03\x01X");
    let n = Sender::new(0).send(message, &mut line).unwrap();
    let mut receiver = Receiver::new(&mut buffer, 0);
    let front = [&b"\x00\x04\x02hi"[..], &line[..5]].concat();
    let panics = || receiver.push_all(&front, |_| panic!("in hear"));
    assert!(std::panic::catch_unwind(std::panic::AssertUnwindSafe(panics)).is_err());
    let mut heard = Vec::new();
    receiver.push_all(&line[5..n], |event| heard.push(format!("{event:?}")));
    assert_eq!(heard, [format!("{:?}", Event::Message(message))]);
}

#[test]
fn an_empty_room_is_no_end() -> Result<(), Box<dyn Error>> {
    let (mut buffer, mut heard) = ([0u8; 16], Vec::new());
    let is_cut = Receiver::new(&mut buffer, 0).listen(&mut Io(line(0)), &mut [], |event| {
        heard.push(format!("{event:?}"))
    })?;
    assert!(is_cut && heard == ["Message([104, 105])"]);
    Ok(())
}
