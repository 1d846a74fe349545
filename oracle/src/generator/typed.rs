//! Well-typed routines. A walk follows the kinds of operands and locals as the code is made up; what is borrowed
//! it does not follow, so violations come by chance.

use super::{
    draft::{call, field, global, local, tokens, LOAD, NOTHING, TAKE},
    Draft, Part, Rng,
};
use crate::listing::Instruction::{self, *};

/// A local is absent or holds a token.
type Locals = Vec<Option<u8>>;

struct Walk {
    code: Vec<Instruction>,
    stack: Vec<u8>,
    locals: Locals,
    /// Which locals are for references.
    references: Vec<bool>,
    fields: usize,
    globals: usize,
    /// How often, in a hundred, references are stored rather than dropped.
    keeping: usize,
}

impl Walk {
    fn does(&mut self, instruction: Instruction, takes: usize, pushes: &[u8]) {
        self.code.push(instruction);
        self.stack.truncate(self.stack.len() - takes);
        self.stack.extend(pushes)
    }

    fn top(&self, below: usize) -> Option<u8> {
        self.stack.iter().rev().nth(below).copied()
    }

    fn value(&self, below: usize) -> bool {
        self.top(below) == Some(0)
    }

    fn reference(&self, below: usize) -> bool {
        self.top(below).is_some_and(|t| t > 0)
    }

    fn load(&mut self) {
        self.does(LOAD, 0, &[0])
    }

    fn some_local(&self, rng: &mut Rng, fits: impl Fn(usize) -> bool) -> Option<u8> {
        let fitting: Vec<u8> = (0..self.locals.len()).filter(|l| fits(*l)).map(|l| l as u8).collect();
        (!fitting.is_empty()).then(|| rng.pick(&fitting))
    }

    /// Pushes a reference, a mutable one if asked for and at hand.
    fn source(&mut self, rng: &mut Rng, mutable: bool) {
        let token = 1 + mutable as u8;
        let held = self.some_local(rng, |l| self.locals[l] == Some(token));
        let plain = self.some_local(rng, |l| !self.references[l]);
        match (held, plain) {
            (Some(l), _) if rng.percent(60) => self.does(CopyLoc(l), 0, &[token]),
            (_, Some(l)) if rng.percent(75) => self.does(local(l, mutable), 0, &[token]),
            _ => {
                self.load();
                let number = rng.below(self.globals);
                self.does(global(number, mutable), 1, &[token])
            }
        }
    }

    fn step(&mut self, rng: &mut Rng) {
        for _ in 0..12 {
            let before = self.code.len();
            match rng.below(20) {
                0..=3 => self.locals_step(rng),
                4..=6 => self.store(rng),
                7..=9 => self.reference_step(rng),
                10..=12 => self.borrow_step(rng),
                13 | 14 => self.vector_step(rng),
                15 => self.value_step(rng),
                16 | 17 => self.call_step(rng),
                18 => self.load(),
                _ => self.drop_top(rng),
            }
            if self.code.len() > before {
                break;
            }
        }
        while self.stack.len() > 11 {
            self.drop_top(rng)
        }
    }

    fn locals_step(&mut self, rng: &mut Rng) {
        let Some(l) = self.some_local(rng, |l| self.locals[l].is_some()) else { return };
        let token = self.locals[l as usize].unwrap();
        if rng.percent(70) {
            self.does(CopyLoc(l), 0, &[token])
        } else {
            self.locals[l as usize] = None;
            self.does(MoveLoc(l), 0, &[token])
        }
    }

    fn store(&mut self, rng: &mut Rng) {
        let Some(token) = self.top(0) else { return };
        if let Some(l) = self.some_local(rng, |l| self.references[l] == (token > 0)) {
            self.locals[l as usize] = Some(token);
            self.does(StLoc(l), 1, &[])
        }
    }

    fn reference_step(&mut self, rng: &mut Rng) {
        match rng.below(6) {
            0 if self.top(0) == Some(2) => self.does(FreezeRef, 1, &[1]),
            1 if self.reference(0) => self.does(ReadRef, 1, &[0]),
            2 => {
                self.load();
                self.source(rng, true);
                if rng.percent(40) {
                    let number = rng.below(self.fields);
                    self.does(field(number, true), 1, &[2])
                }
                self.does(WriteRef, 2, &[])
            }
            3 if self.stack.len() > 1 && self.value(0) == self.value(1) => self.does(Eq, 2, &[0]),
            _ => {
                let mutable = rng.percent(50);
                self.source(rng, mutable)
            }
        }
    }

    fn borrow_step(&mut self, rng: &mut Rng) {
        let mutable = rng.percent(50);
        match rng.below(5) {
            0..=2 if self.reference(0) => {
                let mutable = (mutable && self.top(0) == Some(2)) || rng.percent(4);
                let number = rng.below(self.fields);
                self.does(field(number, mutable), 1, &[1 + mutable as u8])
            }
            3 if self.value(0) => {
                let number = rng.below(self.globals);
                self.does(global(number, mutable), 1, &[1 + mutable as u8])
            }
            4 if self.value(0) => self.does(MoveFrom(rng.below(self.globals) as u16), 1, &[0]),
            _ => self.source(rng, mutable),
        }
    }

    fn vector_step(&mut self, rng: &mut Rng) {
        let mutable = rng.percent(60);
        let act = rng.below(5);
        self.source(rng, mutable || act == 1);
        let takes = if act == 1 { rng.between(1, 2) } else { act.min(1) };
        (0..takes).for_each(|_| self.load());
        match act {
            0 => {
                let token = rng.pick(&[0, 0, 0, 1, 2]);
                self.does(Vector { takes: 0, mutable, pushes: 1, token }, 1, &[token])
            }
            1 => {
                let vector = Vector { takes: takes as u8, mutable: true, pushes: 0, token: 0 };
                self.does(vector, takes + 1, &[])
            }
            2 => self.does(MoveTo, 2, &[]),
            _ => self.does(Element { mutable }, 2, &[1 + mutable as u8]),
        }
    }

    fn value_step(&mut self, rng: &mut Rng) {
        let values = self.stack.iter().rev().take_while(|t| **t == 0).count();
        let (takes, pushes) = match rng.below(4) {
            0 if values > 1 => (2, 1),
            1 => (values.min(3), 1),
            2 if values > 0 => (1, rng.below(4)),
            _ => (0, rng.below(3)),
        };
        let token = if rng.percent(12) { rng.below(3) as u8 } else { 0 };
        let instruction = Values { takes: takes as u16, pushes: pushes as u16, token };
        self.does(instruction, takes, &vec![token; pushes])
    }

    fn call_step(&mut self, rng: &mut Rng) {
        let acquired: Vec<u16> = if rng.percent(25) {
            (0..rng.between(1, 3)).map(|_| rng.below(self.globals) as u16).collect()
        } else {
            vec![]
        };
        let takes = rng.below(self.stack.len().min(4) + 1);
        let returns = tokens(rng, 2);
        self.does(call(takes, &acquired, &returns), takes, &returns)
    }

    fn drop_top(&mut self, rng: &mut Rng) {
        let Some(token) = self.top(0) else { return };
        let before = self.code.len();
        if token > 0 && rng.percent(self.keeping) {
            self.store(rng)
        }
        if self.code.len() == before {
            let take = if token == 0 && rng.percent(30) { TAKE } else { Pop };
            self.does(take, 1, &[])
        }
    }

    /// Gives back the locals that the code at a back edge's target was made for.
    fn restore(&mut self, rng: &mut Rng, wanted: &Locals) {
        for l in 0..wanted.len() {
            if let (Some(token), None) = (wanted[l], self.locals[l]) {
                if rng.percent(85) {
                    if token > 0 {
                        self.source(rng, token == 2)
                    } else {
                        self.load()
                    }
                    self.locals[l] = Some(token);
                    self.does(StLoc(l as u8), 1, &[])
                }
            }
        }
    }

    fn returns(&mut self, rng: &mut Rng, returns: &[u8]) {
        for token in returns {
            if *token > 0 {
                self.source(rng, *token == 2)
            } else {
                self.load()
            }
        }
        self.does(Ret, returns.len(), &[])
    }
}

struct Size {
    parts: usize,
    steps: usize,
    locals: usize,
    keeping: usize,
}

fn header(rng: &mut Rng, size: &Size) -> (Draft, Vec<bool>) {
    let locals = rng.between(1, size.locals);
    let references: Vec<bool> = (0..locals).map(|_| rng.percent(55)).collect();
    let parameters = (0..rng.between(0, locals))
        .map(|l| if references[l] { rng.between(1, 2) as u8 } else { 0 })
        .collect();
    let returns = if rng.percent(40) { tokens(rng, 2) } else { vec![] };
    (Draft { parameters, locals: locals as u8, returns, parts: vec![] }, references)
}

/// Where a part leads: mostly on, often back.
fn successors(rng: &mut Rng, at: usize, parts: usize) -> Vec<usize> {
    if at + 1 == parts {
        return if rng.percent(15) { vec![rng.below(parts)] } else { vec![] };
    }
    let any = rng.below(parts);
    let back = rng.below(at + 1);
    match rng.below(20) {
        0 => vec![],
        1..=6 => vec![at + 1],
        7 | 8 => vec![any],
        9..=12 if any != at + 1 => vec![at + 1, any],
        13..=14 if any != at + 1 => vec![any, at + 1],
        15..=17 => vec![back, at + 1],
        18 if any != back => vec![any, back],
        _ => vec![at + 1, back],
    }
}

fn routine(rng: &mut Rng, size: &Size) -> Draft {
    let (mut draft, references) = header(rng, size);
    let leads: Vec<Vec<usize>> = (0..size.parts).map(|at| successors(rng, at, size.parts)).collect();
    let locals = draft.locals as usize;
    let (mut entries, mut exits): (Vec<Locals>, Vec<Locals>) = (vec![], vec![]);
    for at in 0..size.parts {
        let first = draft.parameters.iter().map(|t| Some(*t)).collect();
        let mut entry = joined((0..at).filter(|b| leads[*b].contains(&at)).map(|b| &exits[b]), first, at);
        entry.resize(locals, None);
        let mut walk = Walk {
            code: vec![],
            stack: vec![],
            locals: entry.clone(),
            references: references.clone(),
            fields: rng.between(1, 4),
            globals: rng.between(1, 3),
            keeping: size.keeping,
        };
        entries.push(entry);
        for _ in 0..rng.between(1, size.steps) {
            walk.step(rng)
        }
        while !walk.stack.is_empty() {
            walk.drop_top(rng)
        }
        for to in leads[at].iter().filter(|to| **to <= at) {
            walk.restore(rng, &entries[*to])
        }
        match leads[at].len() {
            0 if rng.percent(85) => walk.returns(rng, &draft.returns),
            2 => walk.code.extend([LOAD, TAKE]),
            _ => walk.code.push(NOTHING),
        }
        exits.push(walk.locals);
        draft.parts.push(Part { code: walk.code, successors: leads[at].clone(), outside: false })
    }
    draft
}

/// The locals that every part before leaves.
fn joined<'a>(mut exits: impl Iterator<Item = &'a Locals>, first: Locals, at: usize) -> Locals {
    if at == 0 {
        return first;
    }
    let start = exits.next().cloned().unwrap_or_default();
    exits.fold(start, |all, exit| {
        all.iter().zip(exit).map(|(a, b)| if b.is_some() { *a } else { None }).collect()
    })
}

pub fn one_block(rng: &mut Rng) -> Draft {
    let size = Size {
        parts: 1,
        steps: rng.pick(&[3, 6, 10, 18]),
        locals: rng.pick(&[2, 4, 6]),
        keeping: rng.pick(&[10, 40, 70]),
    };
    routine(rng, &size)
}

pub fn blocks(rng: &mut Rng) -> Draft {
    let size = Size {
        parts: rng.pick(&[2, 3, 4, 5, 6, 8, 12, 16]),
        steps: rng.pick(&[2, 4, 6]),
        locals: rng.pick(&[2, 4, 6, 10]),
        keeping: rng.pick(&[10, 30, 60]),
    };
    let mut draft = routine(rng, &size);
    if rng.percent(4) && draft.parts.len() < 16 {
        draft.parts.push(Part { code: vec![LOAD, Pop], successors: vec![], outside: true })
    }
    draft
}
