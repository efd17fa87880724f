//! Frames of one of three compiled-in types as lines of JSON, as plain Rust writes it: what `wire read` prints of the same bytes.
//!
//! usage: plainwire records|floats|letters < FRAMES
#[allow(dead_code)]
#[path = "frames/lanes.rs"]
mod lanes;

use lanes::first_of_two;
use std::fs::File;
use std::io::{self, BufWriter, Read, Write};
use std::os::fd::AsFd;

enum Light {
    Dark,
    Lit(u8),
}

struct Record {
    number: u32,
    time: u64,
    level: i16,
    light: Light,
    name: String,
    next: Option<u16>,
    samples: Vec<u16>,
}

struct Reading {
    small: [f32; 3],
    wide: [f64; 2],
}

// What is left of a message.
struct Input<'a>(&'a [u8]);

impl<'a> Input<'a> {
    fn byte(&mut self) -> Option<u8> {
        let (first, rest) = self.0.split_first()?;
        self.0 = rest;
        Some(*first)
    }

    fn number(&mut self, bits: u32) -> Option<u64> {
        let mut n = 0u64;
        let mut shift = 0;
        loop {
            let byte = self.byte()?;
            let part = u64::from(byte & 127);
            if shift + 7 > bits && part >> (bits - shift) != 0 {
                return None;
            }
            n |= part << shift;
            if byte < 128 {
                return Some(n);
            }
            shift += 7;
            if shift >= bits {
                return None;
            }
        }
    }

    fn bytes(&mut self) -> Option<&'a [u8]> {
        let count = usize::try_from(self.number(64)?).ok()?;
        if count > self.0.len() {
            return None;
        }
        let (front, rest) = self.0.split_at(count);
        self.0 = rest;
        Some(front)
    }

    fn light(&mut self) -> Option<Light> {
        match self.number(32)? {
            0 => Some(Light::Dark),
            1 => Some(Light::Lit(self.byte()?)),
            _ => None,
        }
    }

    fn option(&mut self) -> Option<Option<u16>> {
        match self.byte()? {
            0 => Some(None),
            1 => Some(Some(self.number(16)? as u16)),
            _ => None,
        }
    }

    fn samples(&mut self) -> Option<Vec<u16>> {
        let count = usize::try_from(self.number(64)?).ok()?;
        let mut samples = Vec::with_capacity(count.min(self.0.len()));
        for _ in 0..count {
            samples.push(self.number(16)? as u16);
        }
        Some(samples)
    }

    fn text(&mut self) -> Option<&'a str> {
        std::str::from_utf8(self.bytes()?).ok()
    }

    fn part<const N: usize>(&mut self) -> Option<[u8; N]> {
        let (front, rest) = self.0.split_first_chunk()?;
        self.0 = rest;
        Some(*front)
    }

    fn reading(&mut self) -> Option<Reading> {
        let mut reading = Reading { small: [0.0; 3], wide: [0.0; 2] };
        for number in &mut reading.small {
            *number = f32::from_le_bytes(self.part()?);
        }
        for number in &mut reading.wide {
            *number = f64::from_le_bytes(self.part()?);
        }
        Some(reading)
    }

    fn record(&mut self) -> Option<Record> {
        Some(Record {
            number: self.number(32)? as u32,
            time: self.number(64)?,
            level: {
                let n = self.number(16)? as u16;
                (n >> 1) as i16 ^ -((n & 1) as i16)
            },
            light: self.light()?,
            name: self.text()?.to_owned(),
            next: self.option()?,
            samples: self.samples()?,
        })
    }
}

// The message of a frame without its zero.
fn decode(frame: &[u8], message: &mut Vec<u8>) -> bool {
    message.clear();
    let mut at = 0;
    while at < frame.len() {
        let code = usize::from(frame[at]);
        if at + code > frame.len() {
            return false;
        }
        message.extend_from_slice(&frame[at + 1..at + code]);
        at += code;
        if code < 255 && at < frame.len() {
            message.push(0);
        }
    }
    true
}

fn put_number(out: &mut impl Write, n: u64) -> io::Result<()> {
    let mut digits = [0u8; 20];
    let mut at = digits.len();
    let mut n = n;
    loop {
        at -= 1;
        digits[at] = b'0' + (n % 10) as u8;
        n /= 10;
        if n == 0 {
            return out.write_all(&digits[at..]);
        }
    }
}

fn put_text(out: &mut impl Write, text: &str) -> io::Result<()> {
    out.write_all(b"\"")?;
    let mut done = 0;
    for (i, byte) in text.bytes().enumerate() {
        if byte != b'"' && byte != b'\\' && byte >= 0x20 {
            continue;
        }
        out.write_all(&text.as_bytes()[done..i])?;
        done = i + 1;
        match byte {
            b'"' => out.write_all(b"\\\"")?,
            b'\\' => out.write_all(b"\\\\")?,
            b'\n' => out.write_all(b"\\n")?,
            b'\r' => out.write_all(b"\\r")?,
            b'\t' => out.write_all(b"\\t")?,
            8 => out.write_all(b"\\b")?,
            12 => out.write_all(b"\\f")?,
            _ => write!(out, "\\u{byte:04x}")?,
        }
    }
    out.write_all(&text.as_bytes()[done..])?;
    out.write_all(b"\"")
}

fn put_record(out: &mut impl Write, record: &Record) -> io::Result<()> {
    out.write_all(b"{\"value\":{\"number\":")?;
    put_number(out, u64::from(record.number))?;
    out.write_all(b",\"time\":")?;
    put_number(out, record.time)?;
    out.write_all(b",\"level\":")?;
    if record.level < 0 {
        out.write_all(b"-")?;
    }
    put_number(out, u64::from(record.level.unsigned_abs()))?;
    match record.light {
        Light::Dark => out.write_all(b",\"light\":\"Dark\"")?,
        Light::Lit(n) => {
            out.write_all(b",\"light\":{\"Lit\":")?;
            put_number(out, u64::from(n))?;
            out.write_all(b"}")?;
        }
    }
    out.write_all(b",\"name\":")?;
    put_text(out, &record.name)?;
    out.write_all(b",\"next\":")?;
    match record.next {
        None => out.write_all(b"null")?,
        Some(n) => put_number(out, u64::from(n))?,
    }
    out.write_all(b",\"samples\":[")?;
    for (i, sample) in record.samples.iter().enumerate() {
        if i > 0 {
            out.write_all(b",")?;
        }
        put_number(out, u64::from(*sample))?;
    }
    out.write_all(b"]}}\n")
}

fn put_reading(out: &mut impl Write, reading: &Reading) -> io::Result<()> {
    let ([x, y, z], [temperature, pressure]) = (reading.small, reading.wide);
    let all = [x, y, z].into_iter().map(f64::from).chain([temperature, pressure]);
    if !all.into_iter().all(f64::is_finite) {
        return Err(io::Error::other("a float that isn't finite"));
    }
    writeln!(
        out,
        "{{\"value\":{{\"x\":{x:?},\"y\":{y:?},\"z\":{z:?},\"temperature\":{temperature:?},\"pressure\":{pressure:?}}}}}"
    )
}

fn put_letter(out: &mut impl Write, text: &str) -> io::Result<()> {
    out.write_all(b"{\"value\":{\"text\":")?;
    put_text(out, text)?;
    out.write_all(b"}}\n")
}

// What reads a message and writes its line; false for one that is of another type.
fn records(out: &mut BufWriter<File>, message: &[u8]) -> io::Result<bool> {
    match Input(message).record() {
        Some(record) => put_record(out, &record).map(|()| true),
        None => Ok(false),
    }
}

fn floats(out: &mut BufWriter<File>, message: &[u8]) -> io::Result<bool> {
    match Input(message).reading() {
        Some(reading) => put_reading(out, &reading).map(|()| true),
        None => Ok(false),
    }
}

fn letters(out: &mut BufWriter<File>, message: &[u8]) -> io::Result<bool> {
    match Input(message).text() {
        Some(text) => put_letter(out, text).map(|()| true),
        None => Ok(false),
    }
}

fn show(put: impl Fn(&mut BufWriter<File>, &[u8]) -> io::Result<bool>) -> io::Result<()> {
    let mut input = io::stdin().lock();
    // standard output without std's search for line ends
    let mut out = BufWriter::with_capacity(1 << 17, File::from(io::stdout().as_fd().try_clone_to_owned()?));
    let mut room = vec![0u8; 1 << 16];
    let mut stretch: Vec<u8> = Vec::new();
    let mut message = Vec::new();
    let (mut at, mut begin) = (0u64, 0u64);
    loop {
        let count = input.read(&mut room)?;
        if count == 0 {
            break;
        }
        let mut rest = &room[..count];
        while let Some(length) = first_of_two(rest, 0, 0) {
            let mut frame = &rest[..length];
            if !stretch.is_empty() {
                stretch.extend_from_slice(frame);
                frame = &stretch;
            }
            at += length as u64;
            if !frame.is_empty() && !(decode(frame, &mut message) && put(&mut out, &message)?) {
                writeln!(out, "{{\"damaged\":{{\"from\":{begin},\"to\":{at}}}}}")?;
            }
            stretch.clear();
            rest = &rest[length + 1..];
            at += 1;
            begin = at;
        }
        stretch.extend_from_slice(rest);
        at += rest.len() as u64;
        // each message is out at the end of the read that brought its last byte
        out.flush()?;
    }
    if !stretch.is_empty() {
        writeln!(out, "{{\"cut\":{{\"from\":{begin},\"to\":{at}}}}}")?;
    }
    out.flush()
}

fn main() -> io::Result<()> {
    match std::env::args().nth(1).as_deref() {
        Some("records") => show(records),
        Some("floats") => show(floats),
        Some("letters") => show(letters),
        _ => Err(io::Error::other("usage: plainwire records|floats|letters < FRAMES")),
    }
}
