//! Our own `verify`, linked as a static library.

use crate::answer::{Answer, WORDS};

#[cfg(feature = "watched")]
pub use shown::kept_states;

type Function = unsafe extern "C" fn(*const u8, usize, *mut u32, usize, *mut u32, usize) -> bool;

/// Both functions of the library take the listing, the area and the answer, each with its length.
macro_rules! exported {
    ($name:ident) => {
        extern "C" {
            fn $name(
                listing: *const u8,
                n: usize,
                area: *mut u32,
                m: usize,
                answer: *mut u32,
                k: usize,
            ) -> bool;
        }
    };
}

exported!(reference_safety_verify);
exported!(reference_safety_analyze);

pub const AREA: usize = 16_384;
/// The words of a block.
const BLOCK: usize = 1_024;
const BEYOND: usize = 16;
const USED: u32 = 0xA5A5_A5A5;

fn called(function: Function, listing: &[u8], area: &mut [u32], answer: &mut [u32; WORDS]) -> bool {
    let (from, words) = (area.as_mut_ptr(), area.len());
    unsafe { function(listing.as_ptr(), listing.len(), from, words, answer.as_mut_ptr(), answer.len()) }
}

/// A bare call.
pub type Call = fn(&[u8], &mut [u32], &mut [u32; WORDS]) -> bool;

pub fn verify_call(listing: &[u8], area: &mut [u32], answer: &mut [u32; WORDS]) -> bool {
    called(reference_safety_verify, listing, area, answer)
}

/// Leaves the kept states in the area.
pub fn analyze_call(listing: &[u8], area: &mut [u32], answer: &mut [u32; WORDS]) -> bool {
    called(reference_safety_analyze, listing, area, answer)
}

/// Its answer, from an area in use; or what it did to the area that document 01 forbids.
pub fn verify(listing: &[u8]) -> Result<Answer, &'static str> {
    let mut area = vec![USED; AREA + BEYOND];
    let answer = answered(listing, &mut area)?;
    let (inside, beyond) = area.split_at(AREA);
    if inside.iter().any(|w| *w != 0) {
        return Err("the area is not zero");
    }
    if beyond.iter().any(|w| *w != USED) {
        return Err("words beyond the area are written");
    }
    Ok(answer)
}

/// With an area one word too short: refusal 7, and nothing written.
pub fn verify_short(listing: &[u8]) -> Result<Answer, &'static str> {
    let mut area = vec![USED; AREA - 1];
    let answer = answered(listing, &mut area)?;
    if area.iter().any(|w| *w != USED) {
        return Err("an area too short is written");
    }
    Ok(answer)
}

fn answered(listing: &[u8], area: &mut [u32]) -> Result<Answer, &'static str> {
    let mut words = [u32::MAX; WORDS];
    if !verify_call(listing, area, &mut words) {
        return Err("no answer");
    }
    Ok(Answer::of(words))
}

/// What `analyze` leaves for an empty cell: no kept state, so sixteen words are zero, and all others as they were.
pub fn empty_is_right() -> bool {
    let mut area = vec![USED; AREA + BEYOND];
    let mut words = [u32::MAX; WORDS];
    let told = analyze_call(&[], &mut area, &mut words) && words == [3, 0, 0, 0, 0, 0, 0];
    let expected = |at: usize| if at < AREA && at % BLOCK == 0 { 0 } else { USED };
    told && area.iter().enumerate().all(|(at, word)| *word == expected(at))
}

#[cfg(feature = "watched")]
mod shown {
    use super::{analyze_call, AREA, BLOCK, USED};
    use crate::{
        answer::WORDS,
        kept::{Edge, State},
        listing,
    };

    /// The kept states by entry, of a listing that is read.
    pub fn kept_states(listing: &[u8]) -> Vec<(u16, State)> {
        let routine = listing::read(listing).expect("a listing that is read");
        let mut area = vec![USED; AREA];
        analyze_call(listing, &mut area, &mut [0; WORDS]);
        let blocks = routine.blocks.iter().zip(area.chunks(BLOCK));
        let mut kept: Vec<(u16, State)> = blocks
            .filter(|(_, words)| words[0] >> 18 != 0)
            .map(|(b, words)| (b.entry, state(words, routine.locals)))
            .collect();
        kept.sort_by_key(|(entry, _)| *entry);
        kept
    }

    /// A block's words, as docs/ARCHITECTURE.md has them.
    fn state(words: &[u32], locals: u8) -> State {
        let mut state = State::default();
        for local in 0..locals {
            let word = words[local as usize];
            match word >> 16 & 3 {
                0 => continue,
                1 => state.locals.insert(local, None),
                _ => state.locals.insert(local, Some((word & 0xFFFF) as usize)),
            };
        }
        for word in &words[16..][..(words[1] >> 18) as usize] {
            state.graph.names.insert((word & 0xFFFF) as usize, word >> 16 == 1);
        }
        for edge in words[64..].chunks(10).take((words[2] >> 18) as usize) {
            let pair = ((edge[0] >> 16) as usize, (edge[0] & 0xFFFF) as usize);
            let set = state.graph.sets.entry(pair).or_default();
            set.blurred = edge[1] & 32 != 0;
            let path = edge[2..][..(edge[1] & 15) as usize].to_vec();
            set.edges.push(Edge { strong: edge[1] & 16 != 0, path, offset: (edge[1] >> 16) as u16 })
        }
        state
    }
}
