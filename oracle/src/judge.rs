//! The oracle's answer to a listing.

use crate::{
    adapter::Adapted,
    answer::{hex, Answer},
    errors::PartialVMError,
    graph::{passed_up, Blurred},
    kept,
    listing::{self, Unread},
    panics::{caught, Caught},
};

#[derive(Clone, Copy, Debug, Eq, PartialEq)]
pub enum Source {
    /// The Rust's own: the listing lies in the compared domain.
    Rust,
    /// An exporter's refusal or an empty cell, by our reading of documents 01 and 02.
    Reader,
    /// The Rust's steps and loop, with 20 to 22, the empty stack and the names changed together.
    Watched,
}

#[derive(Clone, Copy, Debug, Eq, PartialEq)]
pub struct Judged {
    pub answer: Answer,
    pub source: Source,
    /// A visit began with operands that a failed block had left.
    pub leftovers: bool,
    /// Names crossed at a block's end.
    pub crossed: bool,
    /// Accepted, though the last run of some block failed.
    pub vanished: bool,
    /// By which calls sets were blurred.
    pub blurred: Blurred,
    /// A violation that edges of different offsets would each alone give.
    pub several: bool,
}

/// How a run of the Rust ended, and after how many visits.
#[derive(Clone, Copy, Debug, Eq, PartialEq)]
pub struct Ending {
    pub answer: Answer,
    /// 20 to 22.
    pub thrown: bool,
    pub blurred: Blurred,
    pub several: bool,
}

pub(crate) struct Watched {
    pub ending: Ending,
    pub leftovers: bool,
    pub crossed: bool,
    pub vanished: bool,
    /// The kept states by entry, where asked for and where the run ended without a refusal.
    pub kept: Vec<(u16, kept::State)>,
}

/// Given by a module below the Rust's own, where its private parts are in sight.
pub(crate) trait Watch {
    fn watched(&self, show: bool) -> Watched;
}

impl Ending {
    pub(crate) fn of(adapted: &Adapted, run: Result<Result<(), PartialVMError>, Caught>) -> Ending {
        let visits = adapted.cfg.visits.get();
        let stood = adapted.records[adapted.unit.code.last.get()] as u32;
        let (mut low, mut high) = (0, 0);
        let (kind, number, place) = match &run {
            Ok(Ok(())) => (0, 0, 0),
            Ok(Err(error)) => {
                (low, high) = error.borrowed.unwrap_or_default();
                let offset = error.offset.expect("every violation has an offset");
                (1, error.status as u32, adapted.records[offset as usize] as u32)
            }
            Err(Caught::Panic(number) | Caught::Thrown(number)) => (2, *number, stood),
            Err(Caught::Unknown(place)) => panic!("the Rust panics at {place}"),
        };
        let blurred = passed_up();
        Ending {
            answer: Answer { kind, number, place, visits, blurred: blurred.all(), borrowed_at: low as u32 },
            thrown: matches!(run, Err(Caught::Thrown(_))),
            blurred,
            several: low < high,
        }
    }
}

/// By the Rust's `verify`, which does not tell where something was borrowed.
fn plain(adapted: &Adapted) -> Ending {
    adapted.cfg.visits.set(0);
    passed_up();
    let run = caught(|| adapted.verify());
    Ending::of(adapted, run)
}

pub fn judge(listing: &[u8]) -> Judged {
    let routine = match listing::read(listing) {
        Ok(routine) => routine,
        Err(unread) => {
            let (kind, number, place) = match unread {
                Unread::Nothing => (3, 0, 0),
                Unread::Refused { number, place } => (2, number, place),
            };
            return Judged {
                answer: Answer { kind, number, place, visits: 0, blurred: 0, borrowed_at: 0 },
                source: Source::Reader,
                leftovers: false,
                crossed: false,
                vanished: false,
                blurred: Blurred::default(),
                several: false,
            };
        }
    };
    let adapted = Adapted::new(&routine);
    let Watched { ending, leftovers, crossed, vanished, .. } = adapted.watched(false);
    let Ending { answer, thrown, blurred, several } = ending;
    if leftovers || crossed || thrown {
        return Judged { answer, source: Source::Watched, leftovers, crossed, vanished, blurred, several };
    }
    let Ending { answer: rust, blurred, .. } = plain(&adapted);
    assert_eq!(rust, Answer { borrowed_at: 0, ..answer }, "watching changed the run of {}", hex(listing));
    Judged { answer, source: Source::Rust, leftovers, crossed, vanished, blurred, several }
}

/// The kept states by entry, if the listing is read and its run ends without a refusal.
pub fn kept_states(listing: &[u8]) -> Option<Vec<(u16, kept::State)>> {
    let watched = Adapted::new(&listing::read(listing).ok()?).watched(true);
    (watched.ending.answer.kind < 2).then_some(watched.kept)
}
