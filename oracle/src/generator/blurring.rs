//! Routines that blur sets, most of them accepted all the same. A lender has about ten edges to the last of three
//! names, the taker, and some to the middle one, which lends to the taker too; so the release of the middle one puts in
//! about as many as fit. It comes by each kind of step, by a return, by a join from either state, in a loop, or in a visit
//! that fails. Others hand about as many references to a call.

use super::{
    draft::{call, field, global, local, LOAD, NOTHING, TAKE},
    Draft, Part, Rng,
};
use crate::listing::Instruction::{self, *};

fn part(code: Vec<Instruction>, successors: &[usize]) -> Part {
    Part { code, successors: successors.to_vec(), outside: false }
}

/// Who lends: local 0, a mutable reference; or the frame root, by its locals or by globals.
#[derive(Clone, Copy)]
enum Lender {
    Parameter,
    Locals,
    Globals,
}
use Lender::*;

/// Locals 1 to 4 are for references; the root lends locals 5 to 15.
const VALUE: u8 = 5;
const VALUES: usize = 11;

/// A second taker gets other parts, by so much.
const OTHER: usize = 40;

#[derive(Clone)]
struct Plan {
    lender: Lender,
    mutable: bool,
    /// The locals of the middle name and of those that take from it.
    middle: u8,
    takers: Vec<u8>,
    /// How many edges the lender has to the middle name, that to each taker, and the lender to each taker.
    upper: usize,
    lower: usize,
    direct: usize,
}

impl Plan {
    fn new(rng: &mut Rng) -> Plan {
        let names = rng.pick(&[[1, 2, 3], [1, 2, 3], [2, 1, 3], [3, 1, 2]]);
        let takers = names[1..=rng.pick(&[1, 1, 2])].to_vec();
        let lender = rng.pick(&[Parameter, Parameter, Parameter, Locals, Globals]);
        let (upper, lower) = rng.pick(&[(1, 1), (1, 1), (1, 1), (2, 2), (3, 3), (3, 4), (2, 4), (1, 3)]);
        // Ten and one more blur; often it is exactly so.
        let goal = rng.pick(&[10, 11, 11, 11, 11, 12, 13]);
        let direct = (goal - (upper * lower).min(goal)).min(12 - upper - lower);
        Plan { lender, mutable: rng.percent(6), middle: names[0], takers, upper, lower, direct }
    }

    /// Pushes a reference to a part of what the lender lends.
    fn lent(&self, number: usize) -> Vec<Instruction> {
        match self.lender {
            Parameter => vec![CopyLoc(0), field(number, self.mutable)],
            Locals => vec![local(VALUE + (number % VALUES) as u8, self.mutable)],
            Globals => vec![LOAD, global(number, self.mutable)],
        }
    }

    /// After the parts that are there: the next one to be made joins their states.
    fn extend(&self, parts: &mut Vec<Part>) {
        let mut group = |codes: Vec<Vec<Instruction>>| {
            let join = parts.len() + codes.len();
            for code in codes {
                let next = parts.len() + 1;
                let to = if next == join { vec![join] } else { vec![join, next] };
                parts.push(part([code, vec![LOAD, TAKE]].concat(), &to))
            }
        };
        group((0..self.upper).map(|n| [self.lent(n), vec![StLoc(self.middle)]].concat()).collect());
        let below = |n: usize| match n {
            0 => vec![CopyLoc(self.middle)],
            _ => vec![CopyLoc(self.middle), field(n, self.mutable)],
        };
        let stored = |taken: &dyn Fn(usize) -> Vec<Instruction>| -> Vec<Instruction> {
            let each = self.takers.iter().enumerate();
            each.flat_map(|(at, taker)| [taken(OTHER * at), vec![StLoc(*taker)]].concat()).collect()
        };
        let lower = (0..self.lower).map(|n| stored(&|more| below(n + more)));
        let direct = (self.upper..self.upper + self.direct).map(|n| stored(&|more| self.lent(n + more)));
        group(lower.chain(direct).collect())
    }

    fn parts(&self) -> Vec<Part> {
        let mut parts = vec![];
        self.extend(&mut parts);
        parts
    }

    /// Steps that release the middle name.
    fn released(&self, rng: &mut Rng) -> Vec<Instruction> {
        let (middle, taker) = (self.middle, self.takers[0]);
        match rng.below(12) {
            0 | 1 => vec![MoveLoc(middle), Pop],
            2 => vec![MoveLoc(middle), ReadRef, Pop],
            3 => vec![MoveLoc(taker), MoveLoc(middle), Eq, Pop],
            4 => vec![MoveLoc(middle), MoveLoc(taker), Eq, Pop],
            5 => vec![MoveLoc(middle), call(1, &[], &[])],
            6 => vec![MoveLoc(middle), MoveLoc(taker), call(2, &[], &[1]), StLoc(4)],
            7 => vec![MoveLoc(middle), LOAD, MoveTo],
            8 => vec![MoveLoc(middle), Vector { takes: 0, mutable: false, pushes: 1, token: 0 }, Pop],
            9 => vec![MoveLoc(middle), LOAD, Element { mutable: false }, StLoc(4)],
            10 => vec![MoveLoc(middle), field(9, false), StLoc(4)],
            _ => [self.lent(20), vec![StLoc(middle)]].concat(),
        }
    }

    fn dropped(&self) -> Vec<Instruction> {
        let takers = self.takers.iter().flat_map(|taker| [MoveLoc(*taker), Pop]);
        takers.chain([MoveLoc(self.middle), Pop]).collect()
    }

    /// One more edge to a taker.
    fn more(&self, number: usize) -> Vec<Instruction> {
        [self.lent(number), vec![StLoc(self.takers[0])]].concat()
    }
}

fn drafted(parts: Vec<Part>, returns: &[u8]) -> Draft {
    Draft { parameters: vec![2], locals: 16, returns: returns.to_vec(), parts }
}

/// Code that changes no set, or little.
fn idle(rng: &mut Rng) -> Vec<Instruction> {
    match rng.below(8) {
        0 => vec![LOAD, Pop],
        1 => vec![CopyLoc(0), Pop],
        2 => vec![CopyLoc(0), StLoc(4)],
        3 => vec![local(VALUE, false), Pop],
        _ => vec![],
    }
}

pub fn draft(rng: &mut Rng) -> Draft {
    let plan = Plan::new(rng);
    match rng.below(11) {
        0..=2 => step(rng, &plan),
        10 => called(rng, &plan),
        3 => returned(rng, &plan),
        4 | 5 => lacking(rng, &plan),
        6 => turning(rng, &plan),
        7 => again(rng, plan),
        _ => vanishing(rng, &plan),
    }
}

/// What a call gives back borrows from all that it takes, once or in a loop.
fn called(rng: &mut Rng, plan: &Plan) -> Draft {
    let (takes, gives) = (rng.between(9, 13), rng.between(1, 3));
    let mut code: Vec<Instruction> = (0..takes).flat_map(|number| plan.lent(number)).collect();
    code.push(call(takes, &[], &vec![1; gives]));
    code.extend((1..=gives as u8).map(StLoc));
    code.extend(idle(rng));
    if rng.percent(50) {
        code.push(Ret);
        return drafted(vec![part(code, &[])], &[]);
    }
    let start: Vec<Instruction> =
        (1..=gives as u8).flat_map(|l| [CopyLoc(0), field(30, false), StLoc(l)]).collect();
    code.extend([LOAD, TAKE]);
    let parts = vec![part(start, &[1]), part(code, &rng.pick(&[[1, 2], [2, 1]])), part(vec![Ret], &[])];
    drafted(parts, &[])
}

fn step(rng: &mut Rng, plan: &Plan) -> Draft {
    let mut parts = plan.parts();
    parts.push(part([idle(rng), plan.released(rng), idle(rng), vec![Ret]].concat(), &[]));
    drafted(parts, &[])
}

/// The lender is the root, or a copy that is returned.
fn returned(rng: &mut Rng, plan: &Plan) -> Draft {
    let mut parts = plan.parts();
    let (code, returns): (_, &[u8]) = match rng.below(3) {
        0 => (vec![CopyLoc(0), Ret], &[2]),
        1 => (vec![CopyLoc(0), FreezeRef, Ret], &[1]),
        _ => (vec![Ret], &[]),
    };
    parts.push(part([idle(rng), code].concat(), &[]));
    drafted(parts, returns)
}

/// The last part joins a state that has all names with one that lacks the middle one, which comes later or is there
/// already.
fn lacking(rng: &mut Rng, plan: &Plan) -> Draft {
    let last = part([idle(rng), vec![Ret]].concat(), &[]);
    let mut parts = vec![];
    if rng.percent(50) {
        let taker = if rng.percent(60) { plan.more(20) } else { vec![] };
        parts.push(part([taker, vec![LOAD, TAKE]].concat(), &[]));
        plan.extend(&mut parts);
        let n = parts.len();
        parts[0].successors = vec![n + 1, 1];
        parts.push(part([idle(rng), vec![NOTHING]].concat(), &[n + 1]));
    } else {
        plan.extend(&mut parts);
        let lacks = match rng.below(3) {
            0 => [plan.dropped(), plan.more(20)].concat(),
            1 => vec![MoveLoc(plan.middle), Pop],
            _ => plan.dropped(),
        };
        let n = parts.len();
        parts.push(part([idle(rng), vec![LOAD, TAKE]].concat(), &[n + 1, n + 2]));
        parts.push(part(lacks, &[n + 2]))
    }
    parts.push(last);
    drafted(parts, &[])
}

/// Once or more in a loop, which makes some of the names anew.
fn turning(rng: &mut Rng, plan: &Plan) -> Draft {
    let mut parts = plan.parts();
    let mut code = [idle(rng), plan.released(rng)].concat();
    if rng.percent(70) {
        code.extend([plan.lent(0), vec![StLoc(plan.middle)]].concat())
    }
    if rng.percent(40) {
        code.extend([CopyLoc(plan.middle), StLoc(plan.takers[0])])
    }
    code.extend([LOAD, TAKE]);
    let n = parts.len();
    let back = if rng.percent(60) { n } else { rng.below(n) };
    parts.push(part(code, &if rng.percent(50) { [back, n + 1] } else { [n + 1, back] }));
    parts.push(part(vec![Ret], &[]));
    drafted(parts, &[])
}

/// Twice the same pair, whose set a copy of the lender may unblur between.
fn again(rng: &mut Rng, plan: Plan) -> Draft {
    let (upper, lower) = rng.pick(&[(3, 4), (4, 3), (2, 5), (3, 3)]);
    let plan = Plan { upper, lower, direct: 0, ..plan };
    let mut parts = plan.parts();
    let between = match rng.below(4) {
        0 => plan.dropped(),
        1 => vec![MoveLoc(plan.middle), Pop],
        _ => vec![MoveLoc(plan.middle), Pop, CopyLoc(0), Pop],
    };
    let at = parts.len();
    plan.extend(&mut parts);
    parts[at].code.splice(0..0, between);
    // A state with the set of the first time reaches the part that releases the middle name again.
    let lower = at + upper;
    let n = parts.len();
    parts[lower - 1].successors = if rng.percent(80) { vec![n, lower] } else { vec![lower] };
    parts.push(part([plan.released(rng), vec![Ret]].concat(), &[]));
    drafted(parts, &[])
}

/// In a visit that fails; its error lasts, or vanishes by the block after it, which changes both and runs again.
fn vanishing(rng: &mut Rng, plan: &Plan) -> Draft {
    let mut parts = plan.parts();
    let n = parts.len();
    let fails = match rng.below(4) {
        0 => vec![local(VALUE, false), Ret],
        1 => vec![CopyLoc(0), local(VALUE, false), Ret],
        _ => [plan.released(rng), vec![LOAD, CopyLoc(0), WriteRef, CopyLoc(0), FreezeRef, Ret]].concat(),
    };
    let more = if rng.percent(60) {
        plan.more(20)
    } else {
        vec![CopyLoc(0), field(21, false), StLoc(plan.takers[0])]
    };
    parts.push(part(vec![LOAD, TAKE], &[n + 1, n + 2]));
    parts.push(part(fails, &[]));
    parts.push(part(more, &if rng.percent(80) { [n + 1, n + 2] } else { [n + 2, n + 1] }));
    drafted(parts, &[1])
}
