//! Times the program `framed` beside a plain Rust program, on files of so many million bytes, or counts the instructions of both by
//! `valgrind --tool=callgrind`, and prints a line of figures for each case.
//!
//! usage: programs FRAMED PLAIN FOLDER MILLIONS REPEATS, or programs FRAMED PLAIN FOLDER MILLIONS count
//!
//! It keeps little memory itself, since what a process uses at its start counts towards the peak of its child.

use std::fs::{self, File};
use std::io::{self, BufWriter, Write};
use std::path::{Path, PathBuf};
use std::process::{Command, Stdio};
use std::time::Instant;

/// Times and peak memory of a child, as C's `struct rusage` has them on Linux.
#[repr(C)]
#[derive(Default)]
struct Usage {
    user: [i64; 2],
    system: [i64; 2],
    peak_kib: i64,
    others: [i64; 13],
}

extern "C" {
    fn wait4(pid: i32, status: *mut i32, options: i32, usage: *mut Usage) -> i32;
}

/// What a run took: seconds by the clock and of the processor, and its peak of memory in bytes.
#[derive(Clone, Copy)]
struct Took {
    clock: f64,
    seconds: f64,
    peak: f64,
}

fn seconds([whole, millionths]: [i64; 2]) -> f64 {
    whole as f64 + millionths as f64 / 1e6
}

/// Runs a program from a file to another, or to nowhere.
fn run(program: &Path, words: &[&str], input: &Path, output: Option<&Path>) -> io::Result<Took> {
    let out = match output {
        Some(path) => Stdio::from(File::create(path)?),
        None => Stdio::null(),
    };
    let input = Stdio::from(File::open(input)?);
    let mut command = Command::new(program);
    let start = Instant::now();
    let child = command.args(words).stdin(input).stdout(out).spawn()?;
    let mut status = 0;
    let mut usage = Usage::default();
    // SAFETY: the child is ours, and isn't waited for elsewhere.
    let waited = unsafe { wait4(child.id() as i32, &mut status, 0, &mut usage) };
    if waited < 0 || status != 0 {
        return Err(io::Error::other(format!(
            "{} failed: {status}",
            program.display()
        )));
    }
    Ok(Took {
        clock: start.elapsed().as_secs_f64(),
        seconds: seconds(usage.user) + seconds(usage.system),
        peak: usage.peak_kib as f64 * 1024.0,
    })
}

/// Writes lines of letters and spaces, of lengths between two, till so many bytes are there.
fn write_lines(path: &Path, bytes: u64, shortest: u64, longest: u64) -> io::Result<()> {
    let mut out = BufWriter::new(File::create(path)?);
    let mut state = longest;
    let mut written = 0;
    while written < bytes {
        let mut next = || {
            state = state
                .wrapping_mul(6_364_136_223_846_793_005)
                .wrapping_add(1);
            state >> 33
        };
        let len = shortest + next() % (longest - shortest + 1);
        for _ in 0..len {
            let letter = b"etaoin shrdlu cmfwyp"[(next() % 20) as usize];
            out.write_all(&[letter])?;
        }
        out.write_all(b"\n")?;
        written += len + 1;
    }
    out.flush()
}

/// The two programs, and where the files are.
struct Programs {
    framed: PathBuf,
    plain: PathBuf,
    folder: PathBuf,
}

impl Programs {
    fn file(&self, name: &str) -> PathBuf {
        self.folder.join(name)
    }

    /// Makes a text, its frames and their digits.
    fn make(&self, name: &str, bytes: u64, (shortest, longest): (u64, u64)) -> io::Result<()> {
        let text = self.file(&format!("{name}.text"));
        write_lines(&text, bytes, shortest, longest)?;
        let frames = self.file(&format!("{name}.frames"));
        run(&self.plain, &["pack"], &text, Some(&frames))?;
        let digits = self.file(&format!("{name}.digits"));
        run(&self.plain, &["pack", "hex"], &text, Some(&digits))?;
        Ok(())
    }

    /// Sees that both programs answer alike.
    fn check(&self, case: &Case, name: &str) -> io::Result<()> {
        let input = self.file(&format!("{name}.{}", case.input));
        let mut answers = Vec::new();
        let out = self.file("answer");
        run(&self.framed, case.ours, &input, Some(&out))?;
        answers.push(fs::read(&out)?);
        for words in case.plain {
            run(&self.plain, words, &input, Some(&out))?;
            answers.push(fs::read(&out)?);
        }
        assert!(answers.iter().all(|a| *a == answers[0]), "{:?}", case.ours);
        fs::remove_file(out)
    }

    /// Counts the instructions of a run by valgrind.
    fn count(&self, program: &Path, words: &[&str], input: &Path) -> io::Result<f64> {
        let counts = self.file("counts");
        let mut command = Command::new("valgrind");
        command.args(["-q", "--tool=callgrind"]).arg(format!("--callgrind-out-file={}", counts.display()));
        command.arg(program).args(words).stdin(File::open(input)?).stdout(Stdio::null());
        if !command.status()?.success() {
            return Err(io::Error::other(format!("valgrind of {}", program.display())));
        }
        let text = fs::read_to_string(counts)?;
        let total = text.lines().find_map(|line| line.strip_prefix("totals:").or(line.strip_prefix("summary:")));
        total.and_then(|total| total.trim().parse().ok()).ok_or_else(|| io::Error::other("nothing was counted"))
    }

    /// Times ours and the plain ways in turn: medians of the seconds, and the greatest peaks.
    fn time(&self, case: &Case, name: &str, repeats: usize) -> io::Result<Vec<Took>> {
        let input = self.file(&format!("{name}.{}", case.input));
        let mut all = vec![Vec::new(); 1 + case.plain.len()];
        for _ in 0..repeats {
            all[0].push(run(&self.framed, case.ours, &input, None)?);
            for (i, words) in case.plain.iter().enumerate() {
                all[i + 1].push(run(&self.plain, words, &input, None)?);
            }
        }
        Ok(all.into_iter().map(middle).collect())
    }
}

fn middle(mut runs: Vec<Took>) -> Took {
    runs.sort_by(|a, b| a.seconds.total_cmp(&b.seconds));
    Took {
        peak: runs.iter().map(|took| took.peak).fold(0.0, f64::max),
        ..runs[runs.len() / 2]
    }
}

/// What `framed` is asked, and what the plain program is asked for the same.
struct Case {
    input: &'static str,
    ours: &'static [&'static str],
    plain: &'static [&'static [&'static str]],
}

/// The kinds of lines, and the lengths that they have.
const LINES: [(&str, (u64, u64)); 2] = [("short", (5, 40)), ("long", (850, 950))];

const CASES: [Case; 4] = [
    Case {
        input: "text",
        ours: &["pack"],
        plain: &[&["pack"]],
    },
    Case {
        input: "text",
        ours: &["pack", "hex"],
        plain: &[&["pack", "hex"]],
    },
    Case {
        input: "frames",
        ours: &["unpack"],
        plain: &[&["collect"], &["unpack"]],
    },
    Case {
        input: "digits",
        ours: &["unpack", "hex"],
        plain: &[&["collect", "hex"], &["unpack", "hex"]],
    },
];

const GOAL: f64 = 1.2;

/// Prints a line of figures: ours, and the plain ways, by their first words.
fn print(case: &Case, lines: &str, what: &str, each: &str, figures: &[f64], goal: bool) {
    let plain: Vec<String> = case.plain.iter().zip(&figures[1..]).map(|(words, n)| format!("{}={n:.4}", words[0])).collect();
    let goals = if goal { format!("{GOAL}\t{GOAL}") } else { "\t".to_owned() };
    let row = format!("`framed {}`, {lines} lines{what}", case.ours.join(" "));
    println!("the program\t{row}\t{each}\t{:.4}\t{}\t{goals}", figures[0], plain.join(";"));
}

/// Prints the instructions for a byte of the text, ours and the plain program's.
fn print_counts(programs: &Programs, millions: u64) -> io::Result<()> {
    for (lines, lengths) in LINES {
        programs.make("small", 300_000, lengths)?;
        programs.make("large", millions * 1_000_000, lengths)?;
        for case in &CASES {
            programs.check(case, "small")?;
            let input = programs.file(&format!("large.{}", case.input));
            let mut counted = vec![programs.count(&programs.framed, case.ours, &input)?];
            for words in case.plain {
                counted.push(programs.count(&programs.plain, words, &input)?);
            }
            let each: Vec<f64> = counted.iter().map(|all| all / (millions as f64 * 1e6)).collect();
            print(case, lines, "", "byte", &each, true);
        }
    }
    Ok(())
}

fn main() -> io::Result<()> {
    let words: Vec<String> = std::env::args().skip(1).collect();
    let [framed, plain, folder, millions, repeats] = &words[..] else {
        return Err(io::Error::other(
            "usage: programs FRAMED PLAIN FOLDER MILLIONS REPEATS",
        ));
    };
    let number = |word: &str| word.parse().map_err(io::Error::other);
    let millions: u64 = number(millions)?;
    let programs = Programs {
        framed: framed.into(),
        plain: plain.into(),
        folder: folder.into(),
    };
    if repeats == "count" {
        return print_counts(&programs, millions);
    }
    let repeats = number(repeats)?;
    for (lines, lengths) in LINES {
        programs.make("small", 300_000, lengths)?;
        programs.make("large", millions * 1_000_000, lengths)?;
        for case in &CASES {
            programs.check(case, "small")?;
            let took = programs.time(case, "large", repeats as usize)?;
            let all = |of: fn(&Took) -> f64| took.iter().map(of).collect::<Vec<f64>>();
            print(case, lines, "", "s", &all(|took| took.seconds), true);
            print(case, lines, ", by the clock", "s", &all(|took| took.clock), false);
            print(case, lines, ", memory", "MB", &all(|took| took.peak / 1e6), false);
        }
    }
    Ok(())
}
