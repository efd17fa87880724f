//! A plain Rust program that does what `framed` does.
//!
//! usage: plain pack|unpack|collect [hex]
//!
//! `pack` and `unpack` write as they read; `collect` keeps all answers before it writes the first.
#[allow(dead_code)]
mod frames;

use frames::lanes::first_of_two;
use frames::{first_zero, runs};
use std::fs::File;
use std::io::{self, BufRead, BufReader, BufWriter, Read, Write};
use std::os::fd::AsFd;
use std::process::ExitCode;

const LIMIT: usize = 1024;
const BUFFER: usize = 64 << 10;

/// What a stretch of the stream holds.
enum Answer {
    Value(String),
    Damaged,
    TooLong,
    Cut,
}

/// Writes a number in groups of seven bits, and answers how many there are.
fn put_number(bytes: &mut [u8; 10], mut number: usize) -> usize {
    let mut at = 0;
    while number >= 128 {
        bytes[at] = number as u8 | 128;
        number >>= 7;
        at += 1;
    }
    bytes[at] = number as u8;
    at + 1
}

/// Reads a number of groups of seven bits, and answers it with the bytes behind it.
fn take_number(bytes: &[u8]) -> Option<(usize, &[u8])> {
    let mut number = 0;
    for (i, &byte) in bytes.iter().enumerate().take(10) {
        if i == 9 && byte > 1 {
            return None;
        }
        number |= usize::from(byte & 127) << (7 * i);
        if byte < 128 {
            return Some((number, &bytes[i + 1..]));
        }
    }
    None
}

/// The text that a frame holds.
fn text_of<'a>(frame: &[u8], message: &'a mut [u8; LIMIT]) -> Option<&'a str> {
    let len = runs::decode_frame(frame, message)?;
    let (count, rest) = take_number(&message[..len])?;
    std::str::from_utf8(rest.get(..count)?).ok()
}

/// The two digits of each byte.
static DIGITS: [[u8; 2]; 256] = {
    let (mut pairs, digits, mut byte) = ([[0; 2]; 256], b"0123456789abcdef", 0);
    while byte < 256 {
        pairs[byte] = [digits[byte >> 4], digits[byte & 15]];
        byte += 1;
    }
    pairs
};

/// What each digit is worth; 255 is no digit.
static WORTH: [u8; 256] = {
    let (mut worth, mut n) = ([255; 256], 0);
    while n < 16 {
        worth[DIGITS[n][1] as usize] = n as u8;
        worth[DIGITS[n][1].to_ascii_uppercase() as usize] = n as u8;
        n += 1;
    }
    worth
};

fn write_hex(out: &mut impl Write, bytes: &[u8]) -> io::Result<()> {
    let mut digits = [0; 512];
    for piece in bytes.chunks(256) {
        for (pair, byte) in digits.chunks_exact_mut(2).zip(piece) {
            pair.copy_from_slice(&DIGITS[usize::from(*byte)]);
        }
        out.write_all(&digits[..2 * piece.len()])?;
    }
    Ok(())
}

/// Standard output without std's search for line ends.
fn output() -> io::Result<BufWriter<File>> {
    let file = File::from(io::stdout().as_fd().try_clone_to_owned()?);
    Ok(BufWriter::with_capacity(BUFFER, file))
}

/// Reads through the end of a line, or all, and says whether there is something.
fn read_line(reader: &mut impl BufRead, line: &mut Vec<u8>) -> io::Result<bool> {
    loop {
        let bytes = reader.fill_buf()?;
        if bytes.is_empty() {
            return Ok(!line.is_empty());
        }
        let end = first_of_two(bytes, b'\n', b'\n');
        let count = end.map_or(bytes.len(), |end| end + 1);
        line.extend_from_slice(&bytes[..count]);
        reader.consume(count);
        if end.is_some() {
            return Ok(true);
        }
    }
}

fn write_framed(out: &mut impl Write, hex: bool, bytes: &[u8]) -> io::Result<()> {
    if hex {
        write_hex(out, bytes)
    } else {
        out.write_all(bytes)
    }
}

/// Where lines are spelled and encoded, one after another.
struct Sender {
    spelling: [u8; LIMIT + 10],
    frame: [u8; LIMIT + 20],
}

impl Sender {
    /// Writes the frame of a line and a zero, and answers whether the line isn't refused.
    fn send(&mut self, out: &mut impl Write, hex: bool, line: &[u8]) -> io::Result<bool> {
        if line.len() > LIMIT || std::str::from_utf8(line).is_err() {
            return Ok(false);
        }
        let mut groups = [0; 10];
        let count = put_number(&mut groups, line.len());
        let len = count + line.len();
        self.spelling[..count].copy_from_slice(&groups[..count]);
        self.spelling[count..len].copy_from_slice(line);
        let len = runs::encode(&self.spelling[..len], &mut self.frame);
        if len > LIMIT {
            return Ok(false);
        }
        self.frame[len] = 0;
        write_framed(out, hex, &self.frame[..=len])?;
        Ok(true)
    }
}

fn pack(hex: bool) -> io::Result<bool> {
    let mut reader = BufReader::with_capacity(BUFFER, io::stdin().lock());
    let mut out = output()?;
    let mut line = Vec::new();
    let mut sender = Sender {
        spelling: [0; LIMIT + 10],
        frame: [0; LIMIT + 20],
    };
    let mut good = true;
    let mut number = 0;
    while read_line(&mut reader, &mut line)? {
        if number == 0 {
            write_framed(&mut out, hex, &[0])?;
        }
        number += 1;
        let text = line.strip_suffix(b"\n").unwrap_or(&line);
        if !sender.send(&mut out, hex, text)? {
            eprintln!("line {number}: refused");
            good = false;
        }
        line.clear();
    }
    if hex {
        out.write_all(b"\n")?;
    }
    out.flush()?;
    Ok(good)
}

fn write_value(out: &mut impl Write, text: &str) -> io::Result<()> {
    out.write_all(b"value ")?;
    let mut rest = text.as_bytes();
    while let Some(at) = first_of_two(rest, b'\\', b'\n') {
        out.write_all(&rest[..at])?;
        out.write_all(if rest[at] == b'\n' { b"\\n" } else { b"\\\\" })?;
        rest = &rest[at + 1..];
    }
    out.write_all(rest)?;
    out.write_all(b"\n")
}

fn write_answer(out: &mut impl Write, answer: &Answer) -> io::Result<()> {
    match answer {
        Answer::Value(text) => write_value(out, text),
        Answer::Damaged => out.write_all(b"damaged\n"),
        Answer::TooLong => out.write_all(b"too long\n"),
        Answer::Cut => out.write_all(b"cut\n"),
    }
}

/// Reads frames, and hands on what each holds: a text, or why there is none.
fn receive(
    mut stream: impl BufRead,
    mut each: impl FnMut(Result<&str, Answer>) -> io::Result<()>,
) -> io::Result<()> {
    let mut held = Vec::with_capacity(LIMIT);
    let mut long = false;
    let mut message = [0; LIMIT];
    loop {
        let piece = stream.fill_buf()?;
        if piece.is_empty() {
            break;
        }
        let zero = first_zero(piece);
        let end = zero.unwrap_or(piece.len());
        long |= end > LIMIT - held.len();
        let whole = zero.is_some() && held.is_empty();
        if !long && !whole {
            held.extend_from_slice(&piece[..end]);
        }
        if zero.is_some() {
            let frame = if whole { &piece[..end] } else { &held[..] };
            if long {
                each(Err(Answer::TooLong))?;
            } else if !frame.is_empty() {
                each(text_of(frame, &mut message).ok_or(Answer::Damaged))?;
            }
            held.clear();
            long = false;
        }
        stream.consume(end + usize::from(zero.is_some()));
    }
    if long {
        each(Err(Answer::TooLong))
    } else if !held.is_empty() {
        each(Err(Answer::Cut))
    } else {
        Ok(())
    }
}

fn unpack(stream: impl BufRead, collect: bool) -> io::Result<bool> {
    let mut out = output()?;
    let mut good = true;
    let mut answers = Vec::new();
    receive(stream, |answer| {
        good &= answer.is_ok();
        match answer {
            Ok(text) if collect => answers.push(Answer::Value(text.to_owned())),
            Err(other) if collect => answers.push(other),
            Ok(text) => write_value(&mut out, text)?,
            Err(other) => write_answer(&mut out, &other)?,
        }
        Ok(())
    })?;
    for answer in &answers {
        write_answer(&mut out, answer)?;
    }
    out.flush()?;
    Ok(good)
}

fn read_hex() -> io::Result<Option<Vec<u8>>> {
    let mut text = Vec::new();
    io::stdin().lock().read_to_end(&mut text)?;
    let digits = text.strip_suffix(b"\n").unwrap_or(&text);
    if digits.len() % 2 == 1 {
        return Ok(None);
    }
    let mut wrong = 0;
    let bytes = digits.chunks_exact(2).map(|pair| {
        let [high, low] = [pair[0], pair[1]].map(|digit| WORTH[usize::from(digit)]);
        wrong |= high | low;
        high << 4 | low
    });
    let bytes = bytes.collect();
    Ok((wrong < 16).then_some(bytes))
}

fn work(words: &[String]) -> io::Result<Option<bool>> {
    let words: Vec<&str> = words.iter().map(String::as_str).collect();
    let (mode, hex) = match words[..] {
        [mode] => (mode, false),
        [mode, "hex"] => (mode, true),
        _ => return Ok(None),
    };
    match mode {
        "pack" => pack(hex).map(Some),
        "unpack" | "collect" if hex => match read_hex()? {
            Some(stream) => unpack(&stream[..], mode == "collect").map(Some),
            None => Ok(None),
        },
        "unpack" | "collect" => {
            let stream = BufReader::with_capacity(BUFFER, io::stdin().lock());
            unpack(stream, mode == "collect").map(Some)
        }
        _ => Ok(None),
    }
}

fn main() -> ExitCode {
    let words: Vec<String> = std::env::args().skip(1).collect();
    match work(&words) {
        Ok(Some(true)) => ExitCode::SUCCESS,
        Ok(Some(false)) => ExitCode::from(1),
        Ok(None) => ExitCode::from(2),
        Err(_) => ExitCode::from(3),
    }
}
