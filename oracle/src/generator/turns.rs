//! Small blocks that lead anywhere. Their steps leave no operands where they fail, so what counts is which blocks run,
//! from which states, and which errors last.

use super::{
    draft::{call, field, local, LOAD, NOTHING},
    Draft, Part, Rng,
};
use crate::listing::Instruction::{self, *};

/// Locals 0 to 2 are parameters, mutable references, and local 3 is one, a value.
const REFERENCES: usize = 3;
const VALUE: u8 = 3;

fn step(rng: &mut Rng) -> Vec<Instruction> {
    let from = rng.below(REFERENCES);
    let to = (from + rng.between(1, REFERENCES - 1)) % REFERENCES;
    let (from, to) = (from as u8, to as u8);
    match rng.below(10) {
        0..=2 => vec![CopyLoc(from), StLoc(to)],
        3 => vec![CopyLoc(from), field(rng.below(2), true), StLoc(to)],
        4 => vec![LOAD, CopyLoc(from), WriteRef],
        5 => vec![CopyLoc(from), call(1, &[], &[])],
        6 => vec![LOAD, StLoc(VALUE)],
        7 => vec![local(VALUE, rng.percent(50)), StLoc(to)],
        8 if rng.percent(30) => vec![MoveLoc(to), Pop],
        _ => vec![NOTHING],
    }
}

fn part(rng: &mut Rng, parts: usize) -> Part {
    if rng.percent(20) {
        let code = match rng.below(3) {
            0 => vec![CopyLoc(0), Ret],
            _ => vec![local(VALUE, false), Ret],
        };
        return Part { code, successors: vec![], outside: false };
    }
    let code = (0..rng.between(1, 2)).flat_map(|_| step(rng)).collect();
    let mut successors: Vec<usize> = (0..rng.pick(&[1, 2, 2, 2])).map(|_| rng.below(parts)).collect();
    successors.dedup();
    Part { code, successors, outside: false }
}

pub fn draft(rng: &mut Rng) -> Draft {
    let n = rng.between(3, 7);
    let mut parts: Vec<Part> = (0..n).map(|_| part(rng, n)).collect();
    if parts[0].successors.is_empty() {
        parts[0] = Part { code: step(rng), successors: vec![1, 2], outside: false }
    }
    Draft { parameters: vec![2, 2, 2, 0], locals: 4, returns: vec![1], parts }
}
