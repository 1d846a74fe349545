//! Routines that mostly fail while several things are borrowed, so that it counts which borrow is named. References, locals
//! or globals lend in any order, in one block or in several that are joined; what borrows may lend again. Then comes a step
//! that fails on some of the borrows or on all.

use super::{
    draft::{call, field, global, local, LOAD, TAKE},
    Draft, Part, Rng,
};
use crate::listing::Instruction::{self, *};

/// Locals 0 and 1 are references that lend, 2 to 5 borrow, 6 and 7 are values.
const LENDERS: [u8; 2] = [0, 1];
const BORROWERS: [u8; 4] = [2, 3, 4, 5];
const VALUES: [u8; 2] = [6, 7];
const NUMBERS: [usize; 3] = [1, 2, 3];

/// What mostly lends, as the last step tests it.
#[derive(Clone, Copy)]
enum Lender {
    Parameters,
    Locals,
    Globals,
}
use Lender::*;

struct Plan {
    lender: Lender,
    /// How many of a hundred borrows are mutable: many, where the last step fails on those alone.
    mutable: usize,
}

impl Plan {
    /// Pushes a reference.
    fn lent(&self, rng: &mut Rng) -> Vec<Instruction> {
        let mutable = rng.percent(self.mutable);
        let number = rng.pick(&NUMBERS);
        let lender = if rng.percent(80) { self.lender } else { rng.pick(&[Parameters, Locals, Globals]) };
        match (rng.below(10), lender) {
            (0, _) => vec![CopyLoc(rng.pick(&BORROWERS))],
            (1, _) => vec![CopyLoc(rng.pick(&BORROWERS)), field(number, mutable)],
            (2, Parameters) => vec![CopyLoc(rng.pick(&LENDERS)), LOAD, Element { mutable: false }],
            (_, Parameters) => vec![CopyLoc(rng.pick(&LENDERS)), field(number, mutable)],
            (_, Locals) => vec![local(rng.pick(&VALUES), mutable)],
            (_, Globals) => vec![LOAD, global(number, mutable)],
        }
    }

    /// A borrower gets another reference, or lends what it has.
    fn changed(&self, rng: &mut Rng) -> Vec<Instruction> {
        let borrower = rng.pick(&BORROWERS);
        match rng.below(8) {
            0 => vec![CopyLoc(borrower), call(1, &[], &[1]), StLoc(borrower)],
            _ => [self.lent(rng), vec![StLoc(borrower)]].concat(),
        }
    }
}

fn part(code: Vec<Instruction>, successors: &[usize]) -> Part {
    Part { code, successors: successors.to_vec(), outside: false }
}

pub fn draft(rng: &mut Rng) -> Draft {
    let (last, returns, plan) = last(rng);
    // Each borrower has something, so that no join drops it.
    let first =
        BORROWERS.iter().flat_map(|borrower| [plan.lent(rng), vec![StLoc(*borrower)]].concat()).collect();
    let mut codes: Vec<Vec<Instruction>> = vec![first];
    for _ in 0..rng.pick(&[0, 0, 1, 2, 3]) {
        codes.push((0..rng.between(1, 3)).flat_map(|_| plan.changed(rng)).collect())
    }
    // The last part joins all, or each part leads to the next.
    let (n, joins) = (codes.len(), rng.percent(70));
    let to = |at: usize| if at + 1 == n || !joins { vec![at + 1] } else { vec![n, at + 1] };
    let codes = codes.into_iter().enumerate();
    let mut parts: Vec<Part> =
        codes.map(|(at, code)| part([code, vec![LOAD, TAKE]].concat(), &to(at))).collect();
    if rng.percent(20) {
        let back = rng.below(n);
        parts[n - 1].successors = if rng.percent(50) { vec![back, n] } else { vec![n, back] }
    }
    parts.push(part(last, &[]));
    Draft { parameters: vec![2, 2, 1, 1, 1, 1, 0, 0], locals: 8, returns, parts }
}

/// What may fail, what the routine returns, and how to borrow before.
fn last(rng: &mut Rng) -> (Vec<Instruction>, Vec<u8>, Plan) {
    let (lender, value, number) = (rng.pick(&LENDERS), rng.pick(&VALUES), rng.pick(&NUMBERS));
    let step = rng.below(20);
    let mutable = match step {
        0 | 3 | 4 | 5 | 12 | 13 => 60,
        _ => rng.pick(&[0, 10, 30]),
    };
    let from = match step {
        0..=3 => Locals,
        8 | 9 | 14 => Globals,
        18 => rng.pick(&[Locals, Globals]),
        _ => Parameters,
    };
    let both = if rng.percent(50) { [CopyLoc(0), CopyLoc(1)] } else { [CopyLoc(1), CopyLoc(0)] };
    let plan = Plan { lender: from, mutable };
    let code = match step {
        0 => vec![CopyLoc(value), Pop],
        1 => vec![MoveLoc(value), Pop],
        2 => vec![LOAD, StLoc(value)],
        3 => vec![local(value, false), Pop],
        4 => vec![CopyLoc(lender), FreezeRef, Pop],
        5 => vec![CopyLoc(lender), ReadRef, Pop],
        6 => vec![LOAD, CopyLoc(lender), WriteRef],
        7 => vec![CopyLoc(lender), field(number, rng.percent(50)), Pop],
        8 => vec![LOAD, global(number, rng.percent(50)), Pop],
        9 => vec![LOAD, MoveFrom(number as u16), Pop],
        10 => vec![CopyLoc(lender), LOAD, Vector { takes: 1, mutable: true, pushes: 0, token: 0 }],
        11 => vec![CopyLoc(lender), LOAD, Element { mutable: true }, Pop],
        12 | 13 => [both.to_vec(), vec![Eq, Pop]].concat(),
        14 | 15 => {
            let acquired: Vec<u16> = (0..rng.below(4)).map(|_| rng.pick(&NUMBERS) as u16).collect();
            [both.to_vec(), vec![call(2, &acquired, &[])]].concat()
        }
        _ => {
            let (code, returns) = returned(rng, both);
            return (code, returns, plan);
        }
    };
    ([code, vec![Ret]].concat(), vec![], plan)
}

/// The lenders and some borrowers, which are not released before the tests.
fn returned(rng: &mut Rng, both: [Instruction; 2]) -> (Vec<Instruction>, Vec<u8>) {
    let moved = rng.between(1, 4);
    let borrowers = BORROWERS[..moved].iter().map(|borrower| MoveLoc(*borrower));
    (both.into_iter().chain(borrowers).chain([Ret]).collect(), vec![2; 2 + moved])
}
