//! Routines that borrow something in some way, keep the reference and then use what is borrowed.

use super::{
    draft::{call, field, global, local, tokens, LOAD, NOTHING, TAKE},
    Draft, Part, Rng,
};
use crate::listing::Instruction::{self, *};

/// Local 0 is a parameter, a reference; local 1 a parameter, a value; the others keep what is borrowed.
const KEEPERS: u8 = 5;

/// Pushes a reference that borrows from local 0, local 1, a kept reference or a global.
fn borrow(rng: &mut Rng) -> Vec<Instruction> {
    let mutable = rng.percent(60);
    let number = rng.below(2);
    let from = if rng.percent(80) { 0 } else { rng.between(2, KEEPERS as usize) as u8 };
    match rng.below(9) {
        0 => vec![CopyLoc(from)],
        1 | 2 => vec![CopyLoc(from), field(number, mutable)],
        3 => vec![CopyLoc(from), field(number, mutable), field(rng.below(2), mutable)],
        4 => vec![CopyLoc(from), LOAD, Element { mutable }],
        5 => vec![CopyLoc(from), call(1, &[], &[1 + mutable as u8])],
        6 | 7 => vec![local(1, mutable)],
        _ => vec![LOAD, global(number, mutable)],
    }
}

fn use_of(rng: &mut Rng) -> Vec<Instruction> {
    let mutable = rng.percent(60);
    let number = rng.below(2);
    let reference = if rng.percent(70) { CopyLoc(0) } else { MoveLoc(0) };
    match rng.below(28) {
        0 | 18..=20 => vec![CopyLoc(1), Pop],
        1 | 21 => vec![MoveLoc(1), StLoc(1)],
        2 | 22 | 23 => vec![LOAD, StLoc(1)],
        3 | 24..=26 => vec![reference, FreezeRef, Pop],
        4 => vec![reference, ReadRef, Pop],
        5 => vec![LOAD, reference, WriteRef],
        6 => vec![local(1, mutable), Pop],
        7 => vec![reference, field(number, mutable), Pop],
        8 => vec![LOAD, global(number, mutable), Pop],
        9 => vec![LOAD, MoveFrom(number as u16), Pop],
        10 => vec![call(0, &[1, number as u16], &[])],
        11 | 27 => vec![reference, LOAD, Vector { takes: 1, mutable: true, pushes: 0, token: 0 }],
        12 => vec![reference, Vector { takes: 0, mutable, pushes: 1, token: 0 }, Pop],
        13 => vec![reference, LOAD, Element { mutable }, Pop],
        14 => vec![reference, call(1, &[], &[])],
        15 => vec![reference, CopyLoc(0), Eq, Pop],
        16 => vec![local(1, false), CopyLoc(0), call(2, &[], &[1]), Pop],
        _ => vec![local(1, false), LOAD, MoveTo],
    }
}

/// Drops a kept reference.
fn drop_kept(rng: &mut Rng) -> Vec<Instruction> {
    let keeper = rng.between(2, KEEPERS as usize) as u8;
    vec![MoveLoc(keeper), Pop]
}

fn ret(rng: &mut Rng, returns: &[u8]) -> Vec<Instruction> {
    let mut code: Vec<Instruction> = returns
        .iter()
        .flat_map(|token| match token {
            0 => vec![LOAD],
            _ if rng.percent(70) => vec![CopyLoc(0)],
            _ => borrow(rng),
        })
        .collect();
    code.push(Ret);
    code
}

/// Copies of one mutable reference, or of what it lends, returned together.
fn returned(rng: &mut Rng) -> Draft {
    let returns: Vec<u8> = (0..rng.between(1, 4)).map(|_| rng.pick(&[0, 1, 2, 2, 2])).collect();
    let code = returns.iter().flat_map(|token| match (token, rng.below(6)) {
        (0, _) => vec![LOAD],
        (_, 0 | 1) => vec![CopyLoc(rng.below(2) as u8)],
        (1, 2) => vec![CopyLoc(0), FreezeRef],
        (_, 3) => vec![CopyLoc(1), call(1, &[], &[*token])],
        (_, 4) => vec![CopyLoc(0), LOAD, Element { mutable: *token == 2 }],
        _ => vec![CopyLoc(0), field(rng.below(3), *token == 2)],
    });
    let code = code.chain([Ret]).collect();
    let parts = vec![Part { code, successors: vec![], outside: false }];
    Draft { parameters: vec![2, 2], locals: 2, returns, parts }
}

pub fn draft(rng: &mut Rng) -> Draft {
    if rng.percent(12) {
        return returned(rng);
    }
    let parameters = vec![rng.pick(&[1, 2, 2, 2]), 0];
    let returns = if rng.percent(50) { tokens(rng, 3) } else { vec![] };
    let mut keeping = vec![];
    let mut kept = 0;
    for _ in 0..rng.between(1, 3) {
        keeping.extend(borrow(rng));
        keeping.push(StLoc(2 + kept % (KEEPERS - 1)));
        kept += 1;
    }
    let mut using = vec![];
    for _ in 0..rng.between(0, 3) {
        using.extend(if rng.percent(75) { use_of(rng) } else { drop_kept(rng) })
    }
    let end = ret(rng, &returns);
    let mut draft = Draft { parameters, locals: 2 + KEEPERS, returns, parts: vec![] };
    let part = |code: Vec<Instruction>, successors: &[usize]| Part {
        code,
        successors: successors.to_vec(),
        outside: false,
    };
    draft.parts = match rng.below(6) {
        0..=2 => vec![part([keeping, using, end].concat(), &[])],
        3 => vec![part(keeping, &[1]), part([using, end].concat(), &[])],
        4 => {
            let other = [borrow(rng), vec![StLoc(2), NOTHING]].concat();
            let fork = part([keeping, vec![LOAD, TAKE]].concat(), &[1, 2]);
            vec![fork, part(other, &[2]), part([using, end].concat(), &[])]
        }
        _ => {
            let turn = part([using, vec![LOAD, TAKE]].concat(), &rng.pick(&[[0, 2], [1, 2], [2, 0]]));
            vec![part(keeping, &[1]), turn, part(end, &[])]
        }
    };
    draft
}
