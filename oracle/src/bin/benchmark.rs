//! Times the Rust's `verify`, and ours where it is linked, on the same listings in the same process.
//!
//!     benchmark [rounds]
//!
//! In each round every side runs once, so that other work on the machine meets all of them; of each side the quickest
//! round counts. Without the default features the Rust's graph is used as it stands.

use oracle::{
    adapter::Adapted,
    generator::{self, load, Rng},
    listing::{self, Routine},
};
use std::{env, hint::black_box, time::Instant};

/// Fewer visits than these are too few for (b).
const MANY_VISITS: u32 = 100;
const LOOPS: usize = 100;
const LOADS: usize = 10_000;

/// What is timed: a name, and the run of the listing of that number.
type Side<'a> = (&'static str, Box<dyn Fn(usize) + 'a>);

fn main() {
    let rounds = env::args().nth(1).map_or(40, |a| a.parse().expect("a number"));
    let loads: Vec<Vec<u8>> = (0..LOADS as u32).map(|start| load::listing(start, 100)).collect();
    whole("(a) A7's routines, starts 0 to 9,999, 100 draws", &loads, rounds);
    whole("(b) accepted routines with loops in loops", &loops(), rounds);
    let short: Vec<Vec<u8>> =
        (0..).map(|start| load::listing(start, 20)).filter(|l| accepted(l)).take(LOADS).collect();
    whole("(c) accepted routines of A7, 20 draws", &short, rounds);
    whole("(d) 512 instructions in 16 blocks, with references and loops", &seeded(load::blocks), rounds);
    whole("(e) 512 instructions, calls that acquire 16 numbers", &seeded(load::calls), rounds);
    let cut: Vec<Vec<u8>> = loads.iter().map(|l| without_blocks(l)).collect();
    println!("the reading alone: (a) without its block records, refused with 5");
    let reading = |at: usize| drop(black_box(listing::read(&cut[at])));
    table(vec![("the adapter's reading", Box::new(reading))], &cut, rounds)
}

fn whole(name: &str, listings: &[Vec<u8>], rounds: u32) {
    let bytes: usize = listings.iter().map(|l| l.len()).sum();
    let adapted: Vec<Adapted> = listings.iter().map(|l| decoded(l)).collect();
    let visits: u32 = adapted.iter().map(visits).sum();
    println!("{name}: {} listings", listings.len());
    println!("  on average {} bytes, {} visits", bytes / listings.len(), visits as usize / listings.len());
    let sides: Vec<Side> = vec![
        ("(i) the Rust", Box::new(|at| drop(black_box(adapted[at].verify())))),
        ("(ii) the Rust with decoding", Box::new(|at| drop(black_box(decoded(&listings[at]).verify())))),
    ];
    table(sides, listings, rounds)
}

/// Nanoseconds a listing, and how many times the others' time ours is.
fn table<'a>(mut sides: Vec<Side<'a>>, listings: &'a [Vec<u8>], rounds: u32) {
    let others = sides.len();
    sides.extend(ours(listings));
    let mut best = vec![f64::INFINITY; sides.len()];
    for _ in 0..rounds {
        for (side, best) in sides.iter().zip(&mut best) {
            let start = Instant::now();
            (0..listings.len()).for_each(|at| side.1(at));
            *best = best.min(start.elapsed().as_nanos() as f64 / listings.len() as f64)
        }
    }
    for ((name, _), time) in sides.iter().zip(&best) {
        println!("  {name:30} {time:12.0} ns")
    }
    if best.len() == others {
        println!("  our verify is not linked")
    }
    for (at, time) in best.iter().enumerate().skip(others) {
        (0..others)
            .for_each(|other| println!("  {} to {}: {:.2}", sides[at].0, sides[other].0, time / best[other]))
    }
}

fn accepted(listing: &[u8]) -> bool {
    decoded(listing).verify().is_ok()
}

fn seeded(make: fn(&mut Rng) -> Vec<u8>) -> Vec<Vec<u8>> {
    let all: Vec<Vec<u8>> = (0..LOOPS as u64).map(|number| make(&mut Rng::new(0, number))).collect();
    assert!(all.iter().all(|l| accepted(l)), "a load that is not accepted");
    all
}

fn decoded(listing: &[u8]) -> Adapted {
    Adapted::new(&listing::read(listing).expect("a listing that is read"))
}

fn visits(adapted: &Adapted) -> u32 {
    let _ = black_box(adapted.verify());
    adapted.cfg.visits.take()
}

fn without_blocks(listing: &[u8]) -> Vec<u8> {
    let routine = listing::read(listing).expect("a listing that is read");
    listing::write(&Routine { blocks: vec![], ..routine })
}

fn loops() -> Vec<Vec<u8>> {
    let many = |listing: &Vec<u8>| {
        let adapted = decoded(listing);
        adapted.verify().is_ok() && adapted.cfg.visits.get() >= MANY_VISITS
    };
    let all = (0..).map(|number| generator::loops(&mut Rng::new(0, number)));
    all.filter(many).take(LOOPS).collect()
}

#[cfg(not(feature = "ours"))]
fn ours(_: &[Vec<u8>]) -> Vec<Side<'_>> {
    vec![]
}

/// From bytes to answer: with the area zeroed within the time, and with the kept states left in it.
#[cfg(feature = "ours")]
fn ours(listings: &[Vec<u8>]) -> Vec<Side<'_>> {
    use oracle::{
        answer::WORDS,
        ours::{analyze_call, verify_call, Call},
    };
    let side = |name, call: Call| -> Side<'_> {
        let area = std::cell::RefCell::new(vec![0u32; oracle::ours::AREA]);
        let run = move |at: usize| {
            black_box(call(&listings[at], &mut area.borrow_mut(), &mut [0; WORDS]));
        };
        (name, Box::new(run))
    };
    vec![side("ours, area zeroed", verify_call), side("ours, area not zeroed", analyze_call)]
}
