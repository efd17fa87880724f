//! A device's bytes, as the published crate `postcard` makes them of a `&[u8]` and of a struct, heard by this crate; they were made by
//! hand by its rules, since that crate isn't here.
use frames::{Event, Receiver, Sender};

/// What `postcard::to_slice_cobs(&Reading { sensor: 300, bytes: &[1, 0, 2] }, ..)` writes: AC 02, then 03 01 00 02, in a frame.
const READING: [u8; 8] = [0x05, 0xAC, 0x02, 0x03, 0x01, 0x02, 0x02, 0x00];

/// What it writes of `&[u8]`: the count 3, and 01 00 02, in a frame.
const BYTES: [u8; 6] = [0x03, 0x03, 0x01, 0x02, 0x02, 0x00];

fn main() {
    // bytes of postcard's are this crate's counted messages
    let mut line = [0u8; 16];
    let n = Sender::new(0).send(&[1, 0, 2], &mut line).expect("room");
    assert_eq!(line[0], 0);
    assert_eq!(line[1..n], BYTES);
    let mut buffer = [0u8; 16];
    let mut receiver = Receiver::new(&mut buffer, 0);
    receiver.push_all(&BYTES, |event| println!("{event:?}"));

    // other types are plain messages here, which `postcard::from_bytes` reads: a front of one is no value of its type, so what it
    // reads was sent
    let mut buffer = [0u8; 16];
    let mut receiver = Receiver::plain(&mut buffer, 0);
    receiver.push_all(&READING, |event| {
        if let Event::Message(message) = event {
            println!("{message:02x?}"); // let reading: Reading = postcard::from_bytes(message)?;
        }
    });
}
