//! Loads for the benchmark: document 02's A7, which anyone can make again, and the largest routines.

use super::{
    draft::{call, field, local, LOAD, NOTHING},
    Rng,
};
use crate::listing::{self, Block, Instruction, Instruction::*, Routine};

/// Document 01's limits: instructions, blocks, acquired numbers.
const CODE: usize = 512;
const BLOCKS: usize = 16;
const ACQUIRED: u16 = 16;

struct Draws(u32);

impl Draws {
    fn next(&mut self) -> u8 {
        self.0 = self.0.wrapping_mul(1_664_525).wrapping_add(1_013_904_223);
        ((self.0 >> 16) % 4) as u8
    }
}

/// Pairs only: an odd last draw picks a local and no act.
pub fn listing(start: u32, draws: u32) -> Vec<u8> {
    let mut state = Draws(start);
    let mut code = vec![];
    for l in 0..4 {
        code.extend([LOAD, StLoc(l)])
    }
    for _ in 0..draws.min(100) / 2 {
        let l = state.next();
        match state.next() {
            0 => code.extend([CopyLoc(l), Pop]),
            1 => code.extend([local(l, true), Pop]),
            2 => code.extend([local(l, true), field(0, true), Pop]),
            _ => code.extend([local(l, true), MoveLoc(l)]),
        }
    }
    code.push(Ret);
    let exit = code.len() as u16 - 1;
    let blocks = vec![Block { entry: 0, exit, successors: vec![] }];
    listing::write(&Routine { locals: 4, blocks, code, ..Routine::default() })
}

/// 512 instructions in 16 blocks, each but the first and the last with a back edge: the four references to fields of four locals are made
/// anew, copied, read and written. Accepted.
pub fn blocks(rng: &mut Rng) -> Vec<u8> {
    let size = CODE / BLOCKS;
    let mut code: Vec<Instruction> = (0..4).flat_map(|l| [LOAD, StLoc(l)]).collect();
    (0..4).for_each(|l| code.extend(borrowed(rng, l)));
    for at in 1..BLOCKS {
        code.resize(at * size, NOTHING);
        for l in (at..at + 3).map(|l| (l % 4) as u8) {
            code.extend(borrowed(rng, l));
            code.extend([CopyLoc(4 + l), ReadRef, Pop, LOAD, CopyLoc(4 + l), WriteRef])
        }
    }
    code.resize(CODE - 1, NOTHING);
    code.push(Ret);
    let entry = |at: usize| (at * size) as u16;
    let successors = |at: usize| match at {
        0 => vec![entry(1)],
        1..=14 => vec![entry(at + 1), entry(at - at % 2)].into_iter().filter(|e| *e != 0).collect(),
        _ => vec![],
    };
    let block = |at| Block { entry: entry(at), exit: entry(at + 1) - 1, successors: successors(at) };
    let blocks = (0..BLOCKS).map(block).collect();
    listing::write(&Routine { locals: 8, blocks, code, ..Routine::default() })
}

/// Local 4 + l gets a mutable reference to a field of local l.
fn borrowed(rng: &mut Rng, l: u8) -> [Instruction; 3] {
    [local(l, true), field(rng.below(4), true), StLoc(4 + l)]
}

/// One block of 512 instructions, all but the last of them calls that acquire 16 numbers. Accepted.
pub fn calls(rng: &mut Rng) -> Vec<u8> {
    let acquired = |first: u16| (first..first + ACQUIRED).collect::<Vec<u16>>();
    let mut code: Vec<Instruction> =
        (1..CODE).map(|_| call(0, &acquired(rng.below(80) as u16), &[])).collect();
    code.push(Ret);
    let blocks = vec![Block { entry: 0, exit: CODE as u16 - 1, successors: vec![] }];
    listing::write(&Routine { locals: 8, blocks, code, ..Routine::default() })
}
