//! Sends messages over a socket on which a write breaks off and bytes are changed, and prints what the other side hears.
use frames::{seal, unseal, Event, Receiver, SendError, Sender, Sink, Source};
use std::io::{self, Read, Write};
use std::os::unix::net::UnixStream;
use std::thread;

/// A line that fails once, after so many bytes.
struct Breaking {
    line: UnixStream,
    left: Option<usize>,
}

impl Sink for Breaking {
    type Error = io::Error;

    fn write_all(&mut self, bytes: &[u8]) -> io::Result<()> {
        match self.left.take() {
            Some(left) => {
                self.line.write_all(&bytes[..left])?;
                Err(io::ErrorKind::BrokenPipe.into())
            }
            None => self.line.write_all(bytes),
        }
    }
}

struct Line(UnixStream);

impl Source for Line {
    type Error = io::Error;

    fn read(&mut self, room: &mut [u8]) -> io::Result<usize> {
        self.0.read(room)
    }
}

fn talk(line: UnixStream) {
    let mut line = Breaking { line, left: None };
    let mut sender = Sender::new(0);
    let (mut message, mut room) = ([0u8; 64], [0u8; 80]);
    let texts = [
        "first",
        "pay\0me",
        "behind it",
        "",
        "longer than the other side has room for",
        "last",
    ];
    for text in texts {
        message[..text.len()].copy_from_slice(text.as_bytes());
        let n = seal(&mut message, text.len()).expect("room for each");
        if text == "pay\0me" {
            line.left = Some(5); // behind `pay`, which as a plain message would be heard
        }
        match sender.send_over(&message[..n], &mut room, &mut line) {
            Ok(()) => {}
            Err(SendError::Line(_)) => assert_eq!(text, "pay\0me"),
            Err(SendError::NoRoom) => unreachable!("room for each"),
        }
    }
    line.left = Some(4);
    let cut = sender.send_over(b"never ends", &mut room, &mut line);
    assert!(cut.is_err());
}

fn main() -> io::Result<()> {
    let (there, here) = UnixStream::pair()?;
    let talking = thread::spawn(move || talk(there));
    let mut buffer = [0u8; 32];
    let mut receiver = Receiver::new(&mut buffer, 0);
    let cut = receiver.listen(&mut Line(here), &mut [0; 7], |event| match event {
        Event::Message(bytes) => match unseal(bytes) {
            Some(text) => println!("message {:?}", String::from_utf8_lossy(text)),
            None => println!("not as it was sent: {} bytes", bytes.len()),
        },
        other => println!("{other:?}"),
    })?;
    println!("{}", if cut { "cut" } else { "ended" });
    talking.join().expect("it doesn't panic");
    Ok(())
}
