//! Routines aimed at one outcome each, which most of them reach: violations 101 to 114 and refusals 10 to 15.

use super::{
    draft::{call, field, global, local, LOAD, NOTHING, TAKE},
    Draft, Part, Rng,
};
use crate::listing::Instruction::{self, *};

/// Local 0 is a parameter, a mutable reference; local 1 a parameter, a value; local 2 keeps what is borrowed; local 3
/// is free.
const PARAMETERS: [u8; 2] = [2, 0];
const LOCALS: u8 = 4;

/// Something borrows from local 0.
fn lent(rng: &mut Rng, mutable: bool) -> Vec<Instruction> {
    let token = 1 + mutable as u8;
    let mut code = match rng.below(5) {
        0 if mutable => vec![CopyLoc(0)],
        0 => vec![CopyLoc(0), FreezeRef],
        1 => vec![CopyLoc(0), LOAD, Element { mutable }],
        2 => vec![CopyLoc(0), call(1, &[], &[token])],
        3 => vec![CopyLoc(0), field(rng.below(3), mutable), field(rng.below(3), mutable)],
        _ => vec![CopyLoc(0), field(rng.below(3), mutable)],
    };
    code.push(StLoc(2));
    code
}

/// All of local 0 is borrowed.
fn lent_whole(rng: &mut Rng, mutable: bool) -> Vec<Instruction> {
    match rng.below(2) {
        0 => vec![CopyLoc(0), LOAD, Element { mutable }, StLoc(2)],
        _ => vec![CopyLoc(0), call(1, &[], &[1 + mutable as u8]), StLoc(2)],
    }
}

/// Local 1 or a global is borrowed.
fn borrowed(rng: &mut Rng, mut code: Vec<Instruction>, mutable: bool) -> Vec<Instruction> {
    if rng.percent(40) {
        code.push(field(rng.below(3), mutable))
    }
    code.push(StLoc(2));
    code
}

/// What comes before and what then should fail.
fn violation(rng: &mut Rng, target: u32) -> (Vec<Instruction>, Vec<Instruction>) {
    let any = rng.percent(50);
    let number = rng.below(3);
    let again = if rng.percent(60) { CopyLoc(0) } else { MoveLoc(0) };
    match target {
        101 => (borrowed(rng, vec![local(1, true)], true), vec![CopyLoc(1)]),
        102 => (borrowed(rng, vec![local(1, any)], any), vec![MoveLoc(1)]),
        103 => (borrowed(rng, vec![local(1, any)], any), vec![LOAD, StLoc(1)]),
        104 => (lent(rng, true), vec![again, FreezeRef]),
        105 if any => (lent(rng, true), vec![again, ReadRef]),
        105 => (lent(rng, true), vec![again, local(1, false), Eq]),
        106 => (lent(rng, any), vec![LOAD, again, WriteRef]),
        107 => (borrowed(rng, vec![local(1, true)], true), vec![local(1, false)]),
        108 if any => (lent_whole(rng, true), vec![again, field(number, true)]),
        108 => (lent(rng, true), vec![again, field(number, false)]),
        109 => {
            let before = borrowed(rng, vec![LOAD, global(number, true)], true);
            let then = match rng.below(3) {
                0 => vec![LOAD, global(number, any)],
                1 => vec![LOAD, MoveFrom(number as u16)],
                _ => vec![call(0, &[3, number as u16], &[])],
            };
            (before, then)
        }
        110 => (lent(rng, any), vec![again, LOAD, Vector { takes: 1, mutable: true, pushes: 0, token: 0 }]),
        111 => (lent(rng, any), vec![again, LOAD, Element { mutable: true }]),
        _ => (lent(rng, any), vec![again, call(1, &[], &[])]),
    }
}

fn refusal(rng: &mut Rng, target: u32) -> Vec<Instruction> {
    let value = if rng.percent(50) { LOAD } else { CopyLoc(1) };
    match (target, rng.below(5)) {
        (10, 0) => vec![LOAD, Values { takes: rng.between(2, 9) as u16, pushes: 1, token: 0 }],
        (10, 1) => vec![CopyLoc(0), Eq],
        (10, 2) => vec![LOAD, call(rng.between(2, 5), &[], &[])],
        (10, 3) => vec![CopyLoc(0), WriteRef],
        (10, _) if rng.percent(50) => vec![Pop],
        (10, _) => vec![StLoc(3)],
        (11, 0) => vec![value, ReadRef],
        (11, 1) => vec![value, CopyLoc(0), Eq],
        (11, 2) => vec![CopyLoc(0), global(0, true)],
        (11, 3) => vec![CopyLoc(0), TAKE],
        (11, _) => vec![value, LOAD, Element { mutable: false }],
        (12, 0) => vec![CopyLoc(3)],
        (12, 1) => vec![MoveLoc(1), Pop, MoveLoc(1)],
        (12, 2) => vec![MoveLoc(0), Pop, CopyLoc(0)],
        (12, _) => vec![MoveLoc(3)],
        (13, 0) => vec![LOAD, local(1, false), WriteRef],
        (13, 1) => vec![local(1, false), FreezeRef],
        (13, 2) => vec![local(1, false), LOAD, Element { mutable: true }],
        (13, _) => vec![local(1, false), Vector { takes: 0, mutable: true, pushes: 1, token: 0 }],
        (_, 0) => vec![LOAD],
        (_, 1) => vec![CopyLoc(0)],
        (_, 2) => vec![CopyLoc(0), LOAD],
        (_, _) => vec![local(1, true), field(0, false)],
    }
}

/// Steps that change nothing that is borrowed.
fn idle(rng: &mut Rng) -> Vec<Instruction> {
    match rng.below(5) {
        0 => vec![LOAD, Pop],
        1 => vec![LOAD, LOAD, Eq, TAKE],
        2 => vec![local(3, true), Pop],
        _ => vec![],
    }
}

fn part(code: Vec<Instruction>, successors: &[usize]) -> Part {
    Part { code, successors: successors.to_vec(), outside: false }
}

/// In one block, in two, or in a loop's body.
fn placed(rng: &mut Rng, before: Vec<Instruction>, then: Vec<Instruction>) -> Vec<Part> {
    let (before, then) = ([idle(rng), before].concat(), [idle(rng), then].concat());
    match rng.below(5) {
        0..=2 => vec![part([before, then].concat(), &[])],
        3 => vec![part(before, &[1]), part(then, &[])],
        _ => {
            let fork = part(vec![LOAD, TAKE], &rng.pick(&[[2, 3], [3, 2]]));
            vec![part(before, &[1]), fork, part(then, &[1]), part(vec![Ret], &[])]
        }
    }
}

/// A value in one state, a reference in the other.
fn mixed(rng: &mut Rng) -> Vec<Part> {
    let reference = if rng.percent(50) { CopyLoc(0) } else { local(1, false) };
    let kinds = [vec![LOAD, StLoc(3)], vec![reference, StLoc(3)]];
    let first = rng.below(2);
    let start = [idle(rng), kinds[first].clone(), vec![LOAD, TAKE]].concat();
    vec![part(start, &[1, 2]), part(kinds[1 - first].clone(), &[2]), part(vec![Ret], &[])]
}

fn returned(rng: &mut Rng, target: u32) -> (Vec<u8>, Vec<Instruction>) {
    let number = rng.below(3);
    if target == 113 {
        let code = match rng.below(3) {
            0 => vec![local(1, true), Ret],
            1 => vec![local(1, true), field(number, true), Ret],
            _ => vec![LOAD, global(number, true), Ret],
        };
        return (vec![2], code);
    }
    let another = match rng.below(3) {
        0 => vec![CopyLoc(0)],
        1 => vec![CopyLoc(0), field(number, true)],
        _ => vec![CopyLoc(0), LOAD, Element { mutable: true }],
    };
    (vec![2, 2], [another, vec![CopyLoc(0), Ret]].concat())
}

pub fn draft(rng: &mut Rng) -> Draft {
    let target = rng.pick(&[
        101, 102, 103, 104, 105, 106, 107, 108, 109, 110, 111, 112, 113, 114, 10, 11, 12, 13, 14, 15,
    ]);
    let mut returns = vec![];
    let parts = match target {
        15 => mixed(rng),
        10..=14 => {
            let code = refusal(rng, target);
            placed(rng, vec![NOTHING], code)
        }
        113 | 114 => {
            let (tokens, code) = returned(rng, target);
            returns = tokens;
            vec![part([idle(rng), code].concat(), &[])]
        }
        _ => {
            let (before, then) = violation(rng, target);
            placed(rng, before, then)
        }
    };
    Draft { parameters: PARAMETERS.to_vec(), locals: LOCALS, returns, parts }
}
