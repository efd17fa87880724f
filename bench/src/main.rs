//! Times the calls of the proved libraries beside Rust peers that do the same work, or counts their instructions, and prints a line of
//! figures for each row. First it compares the peers.
//!
//! usage: calls SAMPLES, or calls count FOLDER
mod calls;
mod cases;
mod check;
mod counts;
mod data;
mod frames;
mod layers;
mod peers;
mod remote;
mod table;
mod timing;

use cases::{encoding_and_decoding, growth, records, sentinels, streams};
use std::path::Path;
use table::Report;

fn measure(samples: usize) {
    let mut report = Report::new();
    encoding_and_decoding(samples, &mut report);
    sentinels(samples, &mut report);
    streams(samples.min(11), &mut report);
    records(2 * samples, &mut report);
    remote::calls(samples, &mut report);
    growth(samples.min(11), &mut report);
}

fn main() {
    let words: Vec<String> = std::env::args().skip(1).collect();
    if words != ["counted"] {
        eprintln!("bench: {} results of the peers agree", check::all());
    }
    match words.iter().map(String::as_str).collect::<Vec<_>>()[..] {
        ["count", folder] => counts::print(Path::new(folder)),
        ["counted"] => counts::count_all(),
        [samples] => measure(samples.parse().expect("a number of samples")),
        _ => panic!("usage: calls SAMPLES, or calls count FOLDER"),
    }
}
