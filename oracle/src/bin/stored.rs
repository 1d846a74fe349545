//! Writes the stored list.
//!
//!     stored FILE [generated listings to choose from] [seed]

use oracle::stored;
use std::{collections::BTreeMap, env, fs};

fn main() {
    let mut arguments = env::args().skip(1);
    let file = arguments.next().expect("the file to write");
    let mut numbers = arguments.map(|a| a.parse::<u64>().expect("a number"));
    let generated = numbers.next().unwrap_or(200_000);
    let seed = numbers.next().unwrap_or(2);
    let entries = stored::choose(seed, generated);
    let bytes = stored::write(&entries);
    fs::write(&file, &bytes).expect("the file can be written");
    let mut outcomes: BTreeMap<(u32, u32), [u32; 3]> = BTreeMap::new();
    for entry in &entries {
        outcomes.entry((entry.answer.kind, entry.answer.number)).or_default()[entry.source as usize] += 1
    }
    println!("{} entries, {} bytes, seed {seed}, chosen from {generated}", entries.len(), bytes.len());
    println!("kind number: the Rust's own, reader's, watched");
    for ((kind, number), counts) in outcomes {
        println!("{kind} {number}: {counts:?}")
    }
}
