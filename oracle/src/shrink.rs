//! Makes a listing smaller while something stays true of it.

use crate::listing::{self, Routine};

pub fn shrink(listing: &[u8], holds: impl Fn(&[u8]) -> bool) -> Vec<u8> {
    let mut best = listing.to_vec();
    while let Some(smaller) = candidates(&best).into_iter().find(|c| c.len() < best.len() && holds(c)) {
        best = smaller
    }
    best
}

fn candidates(listing: &[u8]) -> Vec<Vec<u8>> {
    let Ok(routine) = listing::read(listing) else { return without_bytes(listing) };
    let mut all = vec![];
    for at in 0..routine.code.len() {
        all.extend(without_instruction(&routine, at))
    }
    for at in 0..routine.blocks.len() {
        let mut fewer = routine.clone();
        let gone = fewer.blocks.remove(at).entry;
        fewer.blocks.iter_mut().for_each(|b| b.successors.retain(|s| *s != gone));
        all.push(fewer);
        for successor in 0..routine.blocks[at].successors.len() {
            let mut fewer = routine.clone();
            fewer.blocks[at].successors.remove(successor);
            all.push(fewer)
        }
    }
    for cut in [|r: &mut Routine| r.parameters.pop(), |r: &mut Routine| r.returns.pop()] {
        let mut fewer = routine.clone();
        cut(&mut fewer);
        all.push(fewer)
    }
    all.iter().map(listing::write).collect()
}

/// Blocks move up; one that only held this instruction stays out of it.
fn without_instruction(routine: &Routine, at: usize) -> Option<Routine> {
    let mut fewer = routine.clone();
    fewer.code.remove(at);
    let moved = |offset: &mut u16| *offset -= (*offset as usize > at) as u16;
    for block in &mut fewer.blocks {
        if block.entry == block.exit && block.entry as usize == at {
            return None;
        }
        moved(&mut block.entry);
        block.exit -= (block.exit as usize >= at) as u16;
        block.successors.iter_mut().for_each(moved)
    }
    Some(fewer)
}

fn without_bytes(listing: &[u8]) -> Vec<Vec<u8>> {
    let cuts =
        (0..listing.len()).flat_map(|from| [1, 4, 5, 9].map(|n| (from, (from + n).min(listing.len()))));
    cuts.map(|(from, to)| [&listing[..from], &listing[to..]].concat()).collect()
}
