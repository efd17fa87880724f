//! Lines of figures: what a row took, ours and each peer's, and what is aimed at. `bench/tables` makes tables of them.
use crate::timing::{named, Side, Timed};

/// What is aimed at: the ratio to the best peer, since 27 November 2026, and before that, if the row was there.
#[derive(Clone, Copy)]
pub struct Goal {
    pub now: f64,
    pub before: Option<f64>,
}

impl Goal {
    pub const fn new(now: f64, before: f64) -> Goal {
        Goal { now, before: Some(before) }
    }

    /// The goal of a row that is new.
    pub const fn first(now: f64) -> Goal {
        Goal { now, before: None }
    }
}

/// A number of bytes, as it is read best.
pub fn size(bytes: usize) -> String {
    match bytes {
        n if n >= 1 << 20 && n % (1 << 20) == 0 => format!("{} MiB", n >> 20),
        n if n > 1 << 15 && n % (1 << 10) == 0 => format!("{} KiB", n >> 10),
        n => n.to_string(),
    }
}

/// Prints lines of figures, each in the group that was begun last.
pub struct Report {
    group: &'static str,
}

impl Report {
    pub fn new() -> Report {
        Report { group: "" }
    }

    /// What comes is in this group.
    pub fn begin(&mut self, group: &'static str) {
        self.group = group;
    }

    /// Prints the figures of a row, each for one of something.
    pub fn line(&mut self, row: &str, each: &str, ours: f64, peers: &[(&str, f64)], goal: Option<Goal>) {
        let peers: Vec<String> = peers.iter().map(|(name, figure)| format!("{name}={figure:.4}")).collect();
        let now = goal.map_or(String::new(), |goal| goal.now.to_string());
        let before = goal.and_then(|goal| goal.before).map_or(String::new(), |before| before.to_string());
        println!("{}\t{row}\t{each}\t{ours:.4}\t{}\t{now}\t{before}", self.group, peers.join(";"));
    }

    /// Prints the times of a row, in nanoseconds, of so many calls each: our way with this name, and the peers'. If ours was timed in an
    /// earlier state too, a second line has that.
    pub fn times(&mut self, row: &str, timed: &[Timed], name: &str, calls: f64, goal: Option<Goal>) {
        let ours = named(timed, Side::Ours, name).expect("our way is timed") / calls;
        let peers = timed.iter().filter(|timed| timed.side == Side::Peer);
        let peers: Vec<_> = peers.map(|timed| (timed.name, timed.median / calls)).collect();
        self.line(row, "ns", ours, &peers, goal);
        if let Some(before) = named(timed, Side::Before, name) {
            let group = std::mem::replace(&mut self.group, "after and before");
            self.line(row, "ns", ours, &[("before", before / calls)], None);
            self.group = group;
        }
    }
}
