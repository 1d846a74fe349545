//! Every routine up to a number of instructions, over a few headers, shapes and an alphabet of instructions.

use super::draft::{call, field, global, local, LOAD, TAKE};
use crate::listing::{self, Block, Instruction, Instruction::*, Routine};

/// Each kind, over two locals.
pub fn alphabet() -> Vec<Instruction> {
    let mut all = vec![LOAD, TAKE, Pop, FreezeRef, Eq, ReadRef, WriteRef, Ret, MoveTo];
    for l in 0..2 {
        all.extend([CopyLoc(l), MoveLoc(l), StLoc(l), local(l, false), local(l, true)])
    }
    for mutable in [false, true] {
        all.extend([field(0, mutable), global(0, mutable), Element { mutable }])
    }
    all.extend([
        MoveFrom(0),
        call(1, &[0], &[]),
        call(1, &[], &[1]),
        call(1, &[], &[2]),
        Values { takes: 0, pushes: 1, token: 2 },
        Vector { takes: 0, mutable: false, pushes: 1, token: 0 },
        Vector { takes: 0, mutable: true, pushes: 0, token: 0 },
    ]);
    all
}

/// Parameters and returns.
const HEADERS: [(&[u8], &[u8]); 5] =
    [(&[], &[]), (&[0], &[1]), (&[1], &[]), (&[2], &[2]), (&[2, 0], &[2, 2])];

/// How a code of some length is cut into blocks, if it can be: where each starts, and where each leads.
fn shapes(length: u16) -> Vec<Vec<Block>> {
    let block =
        |entry: u16, exit: u16, successors: &[u16]| Block { entry, exit, successors: successors.to_vec() };
    let last = length - 1;
    let mut all = vec![vec![block(0, last, &[])], vec![block(0, last, &[0])]];
    if length > 1 {
        all.push(vec![block(0, last - 1, &[last]), block(last, last, &[])]);
        all.push(vec![block(0, 0, &[1]), block(1, last, &[0])]);
        all.push(vec![block(0, 0, &[0, 1]), block(1, last, &[])])
    }
    all
}

/// How many there are with exactly so many instructions.
pub fn count(length: u32) -> u64 {
    let shapes = shapes(length as u16).len() as u64;
    (alphabet().len() as u64).pow(length) * HEADERS.len() as u64 * shapes
}

pub struct Small {
    alphabet: Vec<Instruction>,
}

impl Small {
    pub fn new() -> Self {
        Small { alphabet: alphabet() }
    }

    /// The listing of that number below `count`.
    pub fn listing(&self, length: u32, number: u64) -> Vec<u8> {
        let mut left = number;
        let mut digit = |base: usize| {
            let d = left % base as u64;
            left /= base as u64;
            d as usize
        };
        let (parameters, returns) = HEADERS[digit(HEADERS.len())];
        let mut shapes = shapes(length as u16);
        let blocks = shapes.swap_remove(digit(shapes.len()));
        let code = (0..length).map(|_| self.alphabet[digit(self.alphabet.len())].clone()).collect();
        listing::write(&Routine {
            parameters: parameters.to_vec(),
            locals: 2,
            returns: returns.to_vec(),
            blocks,
            code,
        })
    }
}

impl Default for Small {
    fn default() -> Self {
        Self::new()
    }
}
