//! A routine as it is made up: parts of code in order, each a block, and the order in which blocks are listed.

use super::Rng;
use crate::listing::{self, Block, Instruction, Routine};
use Instruction::*;

#[derive(Clone, Default)]
pub struct Part {
    pub code: Vec<Instruction>,
    /// Parts by their place in the code.
    pub successors: Vec<usize>,
    /// Code that no block holds.
    pub outside: bool,
}

#[derive(Clone, Default)]
pub struct Draft {
    pub parameters: Vec<u8>,
    pub locals: u8,
    pub returns: Vec<u8>,
    pub parts: Vec<Part>,
}

pub const LOAD: Instruction = Values { takes: 0, pushes: 1, token: 0 };
pub const TAKE: Instruction = Values { takes: 1, pushes: 0, token: 0 };
pub const NOTHING: Instruction = Values { takes: 0, pushes: 0, token: 0 };

pub fn field(number: usize, mutable: bool) -> Instruction {
    BorrowField { number: number as u16, mutable }
}

pub fn global(number: usize, mutable: bool) -> Instruction {
    BorrowGlobal { number: number as u16, mutable }
}

pub fn local(local: u8, mutable: bool) -> Instruction {
    BorrowLoc { local, mutable }
}

pub fn call(parameters: usize, acquired: &[u16], returns: &[u8]) -> Instruction {
    Call { parameters: parameters as u8, acquired: acquired.to_vec(), returns: returns.to_vec() }
}

impl Draft {
    pub fn routine(&self, rng: &mut Rng) -> Routine {
        let mut code = vec![];
        let mut ends = vec![];
        for part in &self.parts {
            let entry = code.len() as u16;
            code.extend(part.code.iter().cloned());
            if part.code.is_empty() {
                code.push(NOTHING)
            }
            ends.push((entry, code.len() as u16 - 1));
        }
        let block = |at: usize| Block {
            entry: ends[at].0,
            exit: ends[at].1,
            successors: self.parts[at].successors.iter().map(|s| ends[*s].0).collect(),
        };
        Routine {
            parameters: self.parameters.clone(),
            locals: self.locals,
            returns: self.returns.clone(),
            blocks: self.order(rng).into_iter().map(block).collect(),
            code,
        }
    }

    /// The order of the code, or another one in which every successor above comes later.
    fn order(&self, rng: &mut Rng) -> Vec<usize> {
        let all: Vec<usize> = (0..self.parts.len()).filter(|at| !self.parts[*at].outside).collect();
        if rng.percent(60) {
            return all;
        }
        let mut order = vec![0];
        while order.len() < all.len() {
            let waits = |at: &usize| {
                let before = all.iter().filter(|b| *b < at && self.parts[**b].successors.contains(at));
                before.clone().any(|b| !order.contains(b))
            };
            let ready: Vec<usize> =
                all.iter().copied().filter(|at| !order.contains(at) && !waits(at)).collect();
            order.push(rng.pick(&ready))
        }
        order
    }

    pub fn listing(&self, rng: &mut Rng) -> Vec<u8> {
        listing::write(&self.routine(rng))
    }

    /// Changes one thing, with no care for types.
    pub fn edit(&mut self, rng: &mut Rng) {
        let parts = self.parts.len();
        let part = &mut self.parts[rng.below(parts)];
        let at = rng.below(part.code.len() + 1);
        match rng.below(10) {
            0..=2 => part.code.insert(at, any_instruction(rng, self.locals)),
            3 | 4 if at < part.code.len() => part.code[at] = any_instruction(rng, self.locals),
            5 | 6 if at < part.code.len() => {
                part.code.remove(at);
            }
            7 if at + 1 < part.code.len() => part.code.swap(at, at + 1),
            8 => part.successors = some_parts(rng, parts),
            _ if !self.parameters.is_empty() => {
                let at = rng.below(self.parameters.len());
                self.parameters[at] = rng.below(3) as u8
            }
            _ => (),
        }
        // A Ret stands where it may.
        for part in &mut self.parts {
            let last = part.code.len().saturating_sub(1);
            let free = part.successors.is_empty() && !part.outside;
            let mut at = 0;
            part.code.retain(|i| {
                at += 1;
                *i != Ret || (free && at == last + 1)
            })
        }
    }
}

/// None to two different ones.
pub fn some_parts(rng: &mut Rng, parts: usize) -> Vec<usize> {
    let mut some: Vec<usize> = (0..rng.below(3)).map(|_| rng.below(parts)).collect();
    some.dedup();
    some
}

pub fn tokens(rng: &mut Rng, most: usize) -> Vec<u8> {
    (0..rng.between(0, most)).map(|_| rng.below(3) as u8).collect()
}

pub fn any_instruction(rng: &mut Rng, locals: u8) -> Instruction {
    let mutable = rng.percent(50);
    let some_local = if locals > 0 { rng.below(locals as usize) as u8 } else { 0 };
    let number = rng.below(3) as u16;
    match if locals > 0 { rng.below(19) } else { rng.between(4, 18) } {
        0 => CopyLoc(some_local),
        1 => MoveLoc(some_local),
        2 => StLoc(some_local),
        3 => local(some_local, mutable),
        4 => Pop,
        5 => FreezeRef,
        6 => Eq,
        7 => ReadRef,
        8 => WriteRef,
        9 => BorrowField { number, mutable },
        10 => BorrowGlobal { number, mutable },
        11 => MoveFrom(number),
        12 => {
            let acquired: Vec<u16> = (0..rng.below(3)).map(|_| rng.below(3) as u16).collect();
            call(rng.below(4), &acquired, &tokens(rng, 3))
        }
        13 => Values { takes: rng.below(4) as u16, pushes: rng.below(4) as u16, token: rng.below(3) as u8 },
        14 => MoveTo,
        15 => Vector {
            takes: rng.below(3) as u8,
            mutable,
            pushes: rng.below(2) as u8,
            token: rng.below(3) as u8,
        },
        16 => Element { mutable },
        17 => LOAD,
        _ => TAKE,
    }
}
