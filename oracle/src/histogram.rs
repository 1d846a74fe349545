//! How often each outcome was reached, and whose answer it was.

use crate::{
    graph::Blurred,
    judge::{Judged, Source},
};
use std::{collections::BTreeMap, fmt};

#[derive(Default)]
pub struct Histogram {
    /// By kind and number: the Rust's own answers, the reader's, the watched run's.
    outcomes: BTreeMap<(u32, u32), [u64; 3]>,
    /// Runs of the compared domain by visits: 0, 1, 2-3, 4-7, and so on.
    visits: BTreeMap<u32, u64>,
    leftovers: u64,
    crossings: u64,
    vanished: u64,
    blurred: Blurring,
    /// Compared violations that edges of different offsets would each alone give.
    several: u64,
    all: u64,
}

/// The compared acceptances whose run blurred sets.
#[derive(Default)]
struct Blurring {
    accepted: u64,
    vanished: u64,
    most: u64,
    /// Sets blurred by each kind of call.
    by: Blurred,
}

impl Blurring {
    fn add(&mut self, judged: &Judged) {
        let by = judged.blurred;
        self.accepted += 1;
        self.vanished += judged.vanished as u64;
        self.most = self.most.max(by.all());
        self.by.add(by)
    }
}

impl Histogram {
    pub fn add(&mut self, judged: &Judged) {
        let Judged { answer, source, leftovers, crossed, vanished, blurred, several } = judged;
        let column = match source {
            Source::Rust => 0,
            Source::Reader => 1,
            Source::Watched => 2,
        };
        self.outcomes.entry((answer.kind, answer.number)).or_default()[column] += 1;
        if *source == Source::Rust {
            *self.visits.entry(32 - answer.visits.leading_zeros()).or_default() += 1;
            if answer.kind == 0 && blurred.all() > 0 {
                self.blurred.add(judged)
            }
            self.several += *several as u64
        }
        self.leftovers += *leftovers as u64;
        self.crossings += *crossed as u64;
        self.vanished += *vanished as u64;
        self.all += 1
    }

    /// The compared ones.
    pub fn compared(&self) -> u64 {
        self.outcomes.values().map(|columns| columns[0]).sum()
    }

    fn violations(&self) -> u64 {
        self.outcomes.iter().filter(|((kind, _), _)| *kind == 1).map(|(_, columns)| columns[0]).sum()
    }
}

impl fmt::Display for Histogram {
    fn fmt(&self, f: &mut fmt::Formatter) -> fmt::Result {
        writeln!(f, "{:16} {:>10} {:>10} {:>10}", "outcome", "compared", "exporter", "outside")?;
        for ((kind, number), [rust, reader, watched]) in &self.outcomes {
            let name = match kind {
                0 => "ACCEPT".to_string(),
                1 => format!("VIOLATION {number}"),
                2 => format!("REFUSED {number}"),
                _ => "EMPTY".to_string(),
            };
            writeln!(f, "{name:16} {rust:10} {reader:10} {watched:10}")?
        }
        writeln!(
            f,
            "{} listings, {} compared, {} with leftovers, {} with crossings",
            self.all,
            self.compared(),
            self.leftovers,
            self.crossings
        )?;
        writeln!(f, "{} accepted though the last run of a block failed", self.vanished)?;
        let Blurring { accepted, vanished, most, by: Blurred { borrow, release, join } } = self.blurred;
        let failed = format!("{vanished} of them though the last run of a block failed");
        writeln!(f, "{accepted} accepted after sets were blurred, {failed}; at most {most} sets")?;
        writeln!(f, "  blurred by borrows: {borrow}  by releases: {release}  by graphs' joins: {join}")?;
        let several = format!("{} where edges of different offsets would each fail", self.several);
        writeln!(f, "{} compared violations, {several}", self.violations())?;
        write!(f, "visits of the compared:")?;
        for (bits, count) in &self.visits {
            write!(f, "  <{}: {count}", 1u64 << bits)?
        }
        writeln!(f)
    }
}
