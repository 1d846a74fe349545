//! Runs the oracle, and our `verify` where it is linked, over the cases worked out by hand, listings from a seed and
//! all small ones.
//!
//!     compare [listings] [seed] [longest small routine]

use oracle::{
    answer::hex,
    generator::{self, cases, small},
    histogram::Histogram,
    judge::{judge, Source},
    listing,
    shrink::shrink,
};
use std::env;

fn main() {
    let mut arguments = env::args().skip(1).map(|a| a.parse::<u64>().expect("a number"));
    let listings = arguments.next().unwrap_or(20_000);
    let seed = arguments.next().unwrap_or(1);
    let longest = arguments.next().unwrap_or(2) as u32;
    let mut run = Run::default();
    cases::all().iter().for_each(|case| run.one(&case.listing));
    for number in 0..listings {
        let (family, listing) = generator::listing(seed, number);
        run.one(&listing);
        run.families[family] += 1
    }
    println!("seed {seed}, {listings} listings:");
    for (name, count) in generator::FAMILIES.iter().zip(&run.families) {
        println!("  {name}: {count}")
    }
    let small = small::Small::new();
    for length in 1..=longest {
        println!("every small routine of {length} instructions: {}", small::count(length));
        for number in 0..small::count(length) {
            run.one(&small.listing(length, number))
        }
    }
    print!("{}", run.histogram);
    if let Some(listing) = &run.vanished {
        let smallest = shrink(listing, |l| {
            let judged = judge(l);
            judged.vanished && judged.source == Source::Rust
        });
        println!("the smallest accepted though the last run of a block failed: {}", hex(&smallest))
    }
    run.close()
}

#[derive(Default)]
struct Run {
    histogram: Histogram,
    families: [u64; generator::FAMILIES.len()],
    vanished: Option<Vec<u8>>,
    #[cfg(feature = "ours")]
    differing: ours::Differing,
}

impl Run {
    fn one(&mut self, listing: &[u8]) {
        let judged = judge(listing);
        self.histogram.add(&judged);
        if judged.vanished && judged.source == Source::Rust {
            assert!(listing::read(listing).is_ok_and(|r| r.jumps()), "vanished: {}", hex(listing));
            if self.vanished.as_ref().is_none_or(|v| v.len() > listing.len()) {
                self.vanished = Some(listing.to_vec())
            }
        }
        #[cfg(feature = "ours")]
        self.differing.compare(listing, &judged)
    }

    #[cfg(not(feature = "ours"))]
    fn close(&self) {
        println!("our verify is not linked: nothing was compared")
    }

    #[cfg(feature = "ours")]
    fn close(&self) {
        self.differing.close(self.histogram.compared())
    }
}

#[cfg(feature = "ours")]
mod ours {
    use oracle::{
        answer::{hex, Answer},
        judge::{judge, kept_states, Judged, Source},
        ours,
        shrink::shrink,
    };

    /// What differed in the compared domain, and outside it from document 01 as we read it.
    #[derive(Default)]
    pub struct Differing {
        within: Side,
        outside: Side,
        number: u64,
    }

    #[derive(Default)]
    struct Side {
        listings: Vec<Vec<u8>>,
        /// How many runs had their kept states compared.
        kept: u64,
    }

    /// The Rust shows its kept states slowly. Outside the domain those of every run with crossings that ends without a
    /// refusal are compared.
    const KEPT_EVERY: u64 = 4;

    const EMPTY: u32 = 3;

    const SHORT: Answer = Answer { kind: 2, number: 7, place: 0, visits: 0, blurred: 0, borrowed_at: 0 };

    fn differs(listing: &[u8], judged: &Judged) -> bool {
        ours::verify(listing) != Ok(judged.answer)
    }

    /// Where the oracle shows the kept states.
    fn kept_differ(listing: &[u8]) -> bool {
        kept_states(listing).is_some_and(|kept| kept != ours::kept_states(listing))
    }

    impl Differing {
        pub fn compare(&mut self, listing: &[u8], judged: &Judged) {
            self.number += 1;
            let (side, shown) = match judged.source {
                Source::Rust => (&mut self.within, self.number % KEPT_EVERY == 0),
                _ => (&mut self.outside, judged.crossed),
            };
            if differs(listing, judged) {
                side.listings.push(listing.to_vec())
            }
            if shown && judged.answer.kind < 2 {
                side.kept += 1;
                if kept_differ(listing) {
                    side.listings.push(listing.to_vec())
                }
            }
            let empty = judged.answer.kind == EMPTY;
            if (self.number % 100 == 0 || empty) && ours::verify_short(listing) != Ok(SHORT) {
                self.outside.listings.push(listing.to_vec())
            }
            if empty && !ours::empty_is_right() {
                self.outside.listings.push(listing.to_vec())
            }
        }

        pub fn close(&self, compared: u64) {
            let Differing { within, outside, .. } = self;
            let count = |side: &Side| side.listings.len();
            println!("{compared} compared, of {} the kept states too; {} differ", within.kept, count(within));
            let kept = format!("with the kept states of {} runs with crossings", outside.kept);
            println!("outside, {kept}: {} differ", count(outside));
            for (name, side, domain) in [("compared", within, true), ("outside", outside, false)] {
                let Some(smallest) = side.listings.iter().min_by_key(|l| l.len()) else { continue };
                let smallest = shrink(smallest, |l| {
                    let judged = judge(l);
                    (judged.source == Source::Rust) == domain
                        && (differs(l, &judged) || (domain || judged.crossed) && kept_differ(l))
                });
                println!("smallest ({name}): {}", hex(&smallest));
                println!("  the oracle: {:?}", judge(&smallest));
                println!("  ours: {:?}", ours::verify(&smallest))
            }
            if count(within) + count(outside) > 0 {
                std::process::exit(1)
            }
        }
    }
}
