//! The stored list: listings with the oracle's answers, to be replayed without the Rust.
//!
//! All numbers are 32 bits, little-endian. First the number of entries; then each entry: the listing's length, its
//! bytes, whose answer it is (0 the Rust's own, 1 our reader's, 2 the watched run's), and the answer's seven words: 0
//! accepted, 1 violation, 2 refused, 3 an empty cell; its number; its place; the visits; how many sets the run blurred, low
//! and high; where what a violation fails on was borrowed, else 0.

use crate::{
    answer::{Answer, WORDS},
    generator::{self, cases, load, small},
    judge::{judge, Judged, Source},
};
use std::collections::BTreeMap;

pub struct Entry {
    pub listing: Vec<u8>,
    pub source: u32,
    pub answer: Answer,
}

fn number(source: Source) -> u32 {
    match source {
        Source::Rust => 0,
        Source::Reader => 1,
        Source::Watched => 2,
    }
}

pub fn entry(listing: Vec<u8>) -> Entry {
    judged(listing).0
}

fn judged(listing: Vec<u8>) -> (Entry, Judged) {
    let judged = judge(&listing);
    (Entry { listing, source: number(judged.source), answer: judged.answer }, judged)
}

const LONGEST: usize = 450;
/// It takes many blocks to blur a set.
const LONGEST_BLURRING: usize = 700;

/// From each family so many of each outcome, of each scale of visits and of blurred sets, with one borrow and with several,
/// with and without crossings; more where nothing of that varies.
fn of_each(answer: &Answer) -> u32 {
    match answer {
        Answer { kind: 2, number: 1..=6 | 33, .. } => 30,
        // there is one such listing, and it is a case worked out by hand
        Answer { kind: 3, .. } => 0,
        _ => 5,
    }
}

/// The cases worked out by hand, some of A7's and of the small routines, and of the generated ones.
pub fn choose(seed: u64, generated: u64) -> Vec<Entry> {
    let mut all: Vec<Entry> = cases::all().into_iter().map(|case| entry(case.listing)).collect();
    all.extend((0..20).map(|start| entry(load::listing(start, 5 * start))));
    let every = small::Small::new();
    all.extend((0..small::count(2)).step_by(61).map(|number| entry(every.listing(2, number))));
    let mut taken = BTreeMap::new();
    for at in 0..generated {
        let (family, listing) = generator::listing(seed, at);
        if listing.len() > LONGEST_BLURRING {
            continue;
        }
        let (entry, Judged { several, crossed, .. }) = judged(listing);
        if entry.answer.blurred == 0 && entry.listing.len() > LONGEST {
            continue;
        }
        let Answer { kind, number, visits, blurred, .. } = entry.answer;
        let scales = (visits.checked_ilog2(), blurred.checked_ilog2());
        let sort = (family, entry.source, kind, number, scales, several, crossed);
        let count = taken.entry(sort).or_insert(0);
        *count += 1;
        if *count <= of_each(&entry.answer) {
            all.push(entry)
        }
    }
    all
}

pub fn write(entries: &[Entry]) -> Vec<u8> {
    let mut out = (entries.len() as u32).to_le_bytes().to_vec();
    for entry in entries {
        out.extend((entry.listing.len() as u32).to_le_bytes());
        out.extend(&entry.listing);
        out.extend(entry.source.to_le_bytes());
        out.extend(entry.answer.words().iter().flat_map(|w| w.to_le_bytes()))
    }
    out
}

pub fn read(bytes: &[u8]) -> Vec<Entry> {
    let mut at = 0;
    let word = |at: &mut usize| {
        *at += 4;
        u32::from_le_bytes(bytes[*at - 4..*at].try_into().unwrap())
    };
    let count = word(&mut at);
    let entries = (0..count)
        .map(|_| {
            let length = word(&mut at) as usize;
            let listing = bytes[at..at + length].to_vec();
            at += length;
            let source = word(&mut at);
            Entry { listing, source, answer: Answer::of([(); WORDS].map(|_| word(&mut at))) }
        })
        .collect();
    assert_eq!(at, bytes.len());
    entries
}
