//! A log of lines as plain Rust writes one: each record its length, the CRC-32 of its payload, and the payload (its number and its
//! text); synced and printed as `records append` does: lines that are there already share a sync.
//!
//! usage: plainlog append FILE, or plainlog show FILE
use std::env;
use std::fmt::Write as _;
use std::fs::{File, OpenOptions};
use std::io::{self, BufRead, BufReader, Read, Write};
use std::process::ExitCode;

// The sums of single bytes.
const fn table() -> [u32; 256] {
    let mut table = [0u32; 256];
    let mut i = 0;
    while i < 256 {
        let mut sum = i as u32;
        let mut bit = 0;
        while bit < 8 {
            sum = if sum & 1 == 1 { (sum >> 1) ^ 0xEDB8_8320 } else { sum >> 1 };
            bit += 1;
        }
        table[i] = sum;
        i += 1;
    }
    table
}

static TABLE: [u32; 256] = table();

fn crc32(bytes: &[u8]) -> u32 {
    let mut sum = u32::MAX;
    for byte in bytes {
        sum = (sum >> 8) ^ TABLE[((sum ^ u32::from(*byte)) & 0xFF) as usize];
    }
    !sum
}

// Reads one record into the payload; false at the end, or where it is cut or its sum is wrong.
fn next(reader: &mut impl Read, payload: &mut Vec<u8>) -> io::Result<bool> {
    let mut head = [0u8; 8];
    if reader.read_exact(&mut head).is_err() {
        return Ok(false);
    }
    let length = u32::from_le_bytes(head[..4].try_into().unwrap()) as usize;
    let sum = u32::from_le_bytes(head[4..].try_into().unwrap());
    if length < 8 || length > 1 << 20 {
        return Ok(false);
    }
    payload.resize(length, 0);
    if reader.read_exact(payload).is_err() {
        return Ok(false);
    }
    Ok(crc32(payload) == sum)
}

fn append(path: &str) -> io::Result<()> {
    let mut file = OpenOptions::new().read(true).append(true).create(true).open(path)?;
    let mut payload = Vec::new();
    let mut number = 0u64;
    {
        let mut reader = BufReader::new(&mut file);
        while next(&mut reader, &mut payload)? {
            number = u64::from_le_bytes(payload[..8].try_into().unwrap()) + 1;
        }
    }
    let mut record = Vec::new();
    let mut line = Vec::new();
    let mut first = number;
    let mut input = BufReader::with_capacity(65536, io::stdin());
    while input.read_until(b'\n', &mut line)? > 0 {
        if line.last() == Some(&b'\n') {
            line.pop();
        }
        payload.clear();
        payload.extend_from_slice(&number.to_le_bytes());
        payload.extend_from_slice(&line);
        record.clear();
        record.extend_from_slice(&(payload.len() as u32).to_le_bytes());
        record.extend_from_slice(&crc32(&payload).to_le_bytes());
        record.extend_from_slice(&payload);
        file.write_all(&record)?;
        number += 1;
        line.clear();
        if !input.buffer().contains(&b'\n') {
            file.sync_all()?;
            let mut numbers = String::new();
            for number in first..number {
                writeln!(numbers, "{number}").unwrap();
            }
            io::stdout().write_all(numbers.as_bytes())?;
            first = number;
        }
    }
    Ok(())
}

fn show(path: &str) -> io::Result<()> {
    let mut reader = BufReader::new(File::open(path)?);
    let mut payload = Vec::new();
    while next(&mut reader, &mut payload)? {
        let number = u64::from_le_bytes(payload[..8].try_into().unwrap());
        let text = String::from_utf8_lossy(&payload[8..]);
        println!("{number} {text}");
    }
    Ok(())
}

fn main() -> ExitCode {
    let words: Vec<String> = env::args().skip(1).collect();
    let done = match words.iter().map(String::as_str).collect::<Vec<_>>().as_slice() {
        ["append", path] => append(path),
        ["show", path] => show(path),
        _ => return ExitCode::from(2),
    };
    match done {
        Ok(()) => ExitCode::SUCCESS,
        Err(e) => {
            eprintln!("plainlog: {e}");
            ExitCode::from(3)
        }
    }
}
