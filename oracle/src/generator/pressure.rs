//! Routines near the limits: sets of ten edges, paths of eight labels, graphs of 96 edges, also by the order of releases; and
//! exchanged references.

use super::{
    draft::{call, field, global, local, LOAD, NOTHING, TAKE},
    Draft, Part, Rng,
};
use crate::listing::Instruction::{self, *};

fn part(code: Vec<Instruction>, successors: &[usize]) -> Part {
    Part { code, successors: successors.to_vec(), outside: false }
}

pub fn draft(rng: &mut Rng) -> Draft {
    match rng.below(26) {
        20..=23 => ordered(rng),
        24 | 25 => crowded(rng),
        0 | 1 => wide(rng),
        15..=17 => released(rng),
        18 => lacking(rng),
        2 => product(rng),
        3 => root(rng),
        4 => long(rng),
        5 => growing(rng),
        6 => many_by_call(rng),
        7 => many_by_join(rng),
        8..=10 => mutability(rng),
        11 => operands(rng),
        _ => {
            let probing = rng.pick(&[0, 3, 10]);
            flows(rng, probing)
        }
    }
}

/// Parts 0 to n-1, each with its own code, lead to the next one and all to part n, which so joins n states.
fn fan(rng: &mut Rng, n: usize, code: impl Fn(&mut Rng, usize) -> Vec<Instruction>, last: Part) -> Vec<Part> {
    let mut parts: Vec<Part> = (0..n)
        .map(|at| {
            let mut code = code(rng, at);
            code.extend([LOAD, TAKE]);
            if at + 1 == n {
                part(code, &[n])
            } else if rng.percent(70) {
                part(code, &[n, at + 1])
            } else {
                part(code, &[at + 1, n])
            }
        })
        .collect();
    parts.push(last);
    parts
}

/// What shows how local 0 is borrowed: accesses that fail by a path, by an empty path, or not at all.
fn probe(rng: &mut Rng, code: &mut Vec<Instruction>) {
    let mutable = rng.percent(60);
    match rng.below(8) {
        0..=2 => code.extend([CopyLoc(0), field(rng.pick(&[0, 3, 77]), mutable), Pop]),
        3 => code.extend([CopyLoc(0), ReadRef, Pop]),
        4 => code.extend([LOAD, CopyLoc(0), WriteRef]),
        5 => code.extend([CopyLoc(0), Pop]),
        6 => code.extend([MoveLoc(1), Pop]),
        _ => code.extend([CopyLoc(1), field(9, mutable), StLoc(1)]),
    }
}

fn probes(rng: &mut Rng) -> Vec<Instruction> {
    let mut code = vec![];
    for _ in 0..rng.between(1, 3) {
        probe(rng, &mut code)
    }
    code
}

/// Ends, or goes back to some part.
fn ending(rng: &mut Rng, mut code: Vec<Instruction>, parts: usize) -> Part {
    if rng.percent(75) {
        code.push(Ret);
        part(code, &[])
    } else {
        code.push(NOTHING);
        let to = rng.below(parts);
        part(code, &[to])
    }
}

/// One pair of references gets an edge from each of many states.
fn wide(rng: &mut Rng) -> Draft {
    let n = rng.between(8, 14);
    let mutable = rng.percent(50);
    let twice = rng.percent(20);
    let code = move |rng: &mut Rng, at: usize| {
        let mut code = vec![CopyLoc(0), field(at, mutable)];
        if twice || rng.percent(10) {
            code.push(field(rng.below(3), mutable))
        }
        code.push(StLoc(1));
        code
    };
    let probes = probes(rng);
    let last = ending(rng, probes, n + 1);
    let parts = fan(rng, n, code, last);
    Draft { parameters: vec![2], locals: 2, returns: vec![], parts }
}

/// A release splices the edges of two sets.
fn product(rng: &mut Rng) -> Draft {
    let (first, second) = (rng.between(2, 6), rng.between(2, 4));
    let n = first + second;
    let mut parts: Vec<Part> = (0..n)
        .map(|at| {
            let upper = at < first;
            let join = if upper { first } else { n };
            let (from, to) = if upper { (0, 1) } else { (1, 2) };
            let mut code = vec![CopyLoc(from), field(at, true), StLoc(to), LOAD, TAKE];
            if rng.percent(10) {
                code.insert(2, field(1, true))
            }
            if at + 1 == join {
                part(code, &[join])
            } else {
                part(code, &[join, at + 1])
            }
        })
        .collect();
    let mut code = vec![MoveLoc(1), Pop];
    if rng.percent(50) {
        code.extend([CopyLoc(2), StLoc(1)])
    }
    code.extend(probes(rng));
    parts.push(ending(rng, code, n + 1));
    Draft { parameters: vec![2], locals: 3, returns: vec![], parts }
}

/// About ten edges between locals 0 and 1, and local 2 between them, whose release puts in one more: a new one, one
/// that is there, or one of too many labels.
fn released(rng: &mut Rng) -> Draft {
    let n = rng.between(8, 13);
    let depth = rng.pick(&[1, 1, 1, 2, 7, 8]);
    let below = rng.below(3);
    let mutable = rng.percent(30);
    let code = move |rng: &mut Rng, at: usize| match at {
        0 => {
            let path = vec![field(0, mutable); depth];
            [vec![CopyLoc(0)], path, vec![StLoc(2), CopyLoc(0), field(0, mutable), StLoc(1)]].concat()
        }
        1 => [vec![CopyLoc(2)], vec![field(1, mutable); below], vec![StLoc(1)]].concat(),
        _ if rng.percent(4) => vec![CopyLoc(0), field(at, mutable), field(1, mutable), StLoc(1)],
        _ => vec![CopyLoc(0), field(at, mutable), StLoc(1)],
    };
    let mut end = vec![];
    match rng.below(8) {
        0 => end.extend([CopyLoc(0), Pop]),
        1 => end.extend([CopyLoc(0), StLoc(3)]),
        _ => (),
    }
    end.extend([MoveLoc(2), Pop]);
    end.extend(probes(rng));
    let last = ending(rng, end, n + 1);
    let parts = fan(rng, n, code, last);
    Draft { parameters: vec![2], locals: 4, returns: vec![], parts }
}

/// Local 0 lends to one local, that to a second and that to a third, along one to four paths each. Some of the three are released
/// together, by a comparison, a call or a return, in any order of names: which one goes first decides whether a set blurs on the
/// way and whether a path gets too long.
fn ordered(rng: &mut Rng) -> Draft {
    let mut chain = [1, 2, 3];
    shuffle(rng, &mut chain);
    let chain = chain.map(|l| l as u8);
    let mutable = rng.percent(20);
    let long = rng.percent(40);
    let widths = if long { [1; 3] } else { [rng.between(1, 4), rng.between(1, 4), rng.between(1, 4)] };
    let mut parts = vec![];
    for (at, to) in chain.into_iter().enumerate() {
        let from = if at == 0 { 0 } else { chain[at - 1] };
        let join = parts.len() + widths[at];
        for number in 0..widths[at] {
            let depth = if long { rng.between(1, 6) } else { rng.pick(&[1, 1, 1, 2]) };
            let path = (0..depth).map(|deep| field(if deep == 0 { number } else { rng.below(2) }, mutable));
            let mut code = vec![CopyLoc(from)];
            code.extend(path);
            code.extend([StLoc(to), LOAD, TAKE]);
            let next = parts.len() + 1;
            let successors = if next == join { vec![join] } else { vec![join, next] };
            parts.push(part(code, &successors))
        }
    }
    if rng.percent(30) {
        let (from, to) = rng.pick(&[(0, chain[1]), (0, chain[2]), (chain[0], chain[2])]);
        let more = vec![CopyLoc(from), field(rng.pick(&[0, 5]), mutable), StLoc(to), LOAD, TAKE];
        let at = parts.len();
        parts.push(part(vec![LOAD, TAKE], &[at + 1, at + 2]));
        parts.push(part(more, &[at + 2]))
    }
    let mut returns = vec![];
    let mut code = released_together(rng, &chain, &mut returns);
    if returns.is_empty() {
        code.extend(probes(rng))
    }
    code.push(Ret);
    parts.push(part(code, &[]));
    Draft { parameters: vec![2], locals: 5, returns, parts }
}

/// Two of the chain compared, some of them given to a call that may lend its result, or all left to the return, which may return what
/// borrows from the last one.
fn released_together(rng: &mut Rng, chain: &[u8; 3], returns: &mut Vec<u8>) -> Vec<Instruction> {
    let mut order = [0, 1, 2];
    shuffle(rng, &mut order);
    let mut code: Vec<Instruction> = order.iter().map(|at| MoveLoc(chain[*at])).collect();
    match rng.below(8) {
        0..=2 => {
            code.truncate(2);
            code.extend([Eq, Pop])
        }
        3..=5 => {
            let n = rng.between(2, 3);
            code.truncate(n);
            let lends = rng.percent(60);
            code.push(call(n, &[], if lends { &[1] } else { &[] }));
            if lends {
                code.push(StLoc(4))
            }
        }
        6 => {
            let n = rng.between(1, 2);
            code = (0..n).flat_map(|at| [CopyLoc(chain[2]), field(at, false)]).collect();
            returns.extend(vec![1; n])
        }
        _ => code.clear(),
    }
    code
}

/// Many names lend to one and that to many: where its release comes before that of the others, its edges multiply.
fn crowded(rng: &mut Rng) -> Draft {
    let lenders = rng.between(6, 8);
    let takers = rng.between(5, 7);
    let others = rng.between(2, 6);
    let first = lenders as u8;
    let end = first + takers as u8;
    let hub = rng.pick(&[first, end, end - 2]);
    let takers: Vec<u8> = (first..=end).filter(|l| *l != hub).collect();
    let all = || (0..lenders as u8).map(CopyLoc);
    let mut code: Vec<Instruction> = all().collect();
    code.extend([call(lenders, &[], &[1]), StLoc(hub)]);
    code.extend(takers.iter().flat_map(|l| [CopyLoc(hub), StLoc(*l)]));
    let start = part([code, vec![LOAD, TAKE]].concat(), &[1]);
    let mut code: Vec<Instruction> = all().collect();
    code.push(call(lenders, &[], &vec![1; others]));
    let mut returns = vec![];
    match rng.below(4) {
        0 => returns = vec![1; others],
        1 => code.extend([MoveLoc(hub), MoveLoc(takers[0]), Eq, Pop]),
        _ => {
            let mut given = [vec![hub as usize], takers.iter().map(|l| *l as usize).collect()].concat();
            shuffle(rng, &mut given);
            given.truncate(16 - others);
            code.extend(given.iter().map(|l| MoveLoc(*l as u8)));
            code.push(call(given.len(), &[], &[]))
        }
    }
    if returns.is_empty() {
        code.extend(vec![Pop; others])
    }
    code.push(Ret);
    Draft { parameters: vec![1; lenders], locals: end + 1, returns, parts: vec![start, part(code, &[])] }
}

/// The frame root's own set: one reference borrows many locals or globals.
fn root(rng: &mut Rng) -> Draft {
    let n = rng.between(8, 13);
    let mutable = rng.percent(60);
    let globals = rng.percent(30);
    let code = move |_: &mut Rng, at: usize| match globals {
        true => vec![LOAD, global(at, mutable), StLoc(15)],
        false => vec![local(at as u8, mutable), StLoc(15)],
    };
    let mut end = vec![];
    for _ in 0..rng.between(1, 3) {
        let l = rng.pick(&[0, 12, 13, 14]);
        match rng.below(8) {
            0 => end.extend([CopyLoc(l), Pop]),
            1 => end.extend([MoveLoc(l), Pop]),
            2 => end.extend([LOAD, StLoc(l)]),
            3 => end.extend([local(l, true), Pop]),
            4 => end.extend([local(l, false), Pop]),
            5 => end.extend([LOAD, global(40, mutable), Pop]),
            6 => end.push(call(0, &[40], &[])),
            _ => end.extend([MoveLoc(15), Pop]),
        }
    }
    let last = ending(rng, end, n + 1);
    let parts = fan(rng, n, code, last);
    Draft { parameters: vec![0; 15], locals: 16, returns: vec![], parts }
}

/// Paths of about eight labels.
fn long(rng: &mut Rng) -> Draft {
    let mut code = vec![LOAD, StLoc(2)];
    let mut total = 0;
    let goal = rng.between(6, 10);
    code.push(if rng.percent(70) { CopyLoc(0) } else { local(2, true) });
    while total < goal {
        let step = rng.between(1, 4).min(goal - total);
        code.extend((0..step).map(|_| field(rng.below(2), true)));
        total += step;
        if rng.percent(50) {
            code.extend([StLoc(1), CopyLoc(1)])
        }
    }
    code.push(StLoc(1));
    code.extend(probes(rng));
    code.push(Ret);
    Draft { parameters: vec![2], locals: 3, returns: vec![], parts: vec![part(code, &[])] }
}

/// A loop that goes one field deeper each time.
fn growing(rng: &mut Rng) -> Draft {
    let fields = rng.between(1, 4);
    let step = |rng: &mut Rng| vec![CopyLoc(1), field(rng.below(fields), true), StLoc(1)];
    let start = vec![CopyLoc(0), StLoc(1)];
    let mut parts = vec![part(start, &[1])];
    let turns = rng.between(1, 4);
    for at in 1..=turns {
        let mut code = step(rng);
        code.extend([LOAD, TAKE]);
        let back = rng.between(1, at);
        parts.push(part(code, &if rng.percent(50) { [back, at + 1] } else { [at + 1, back] }))
    }
    let probes = probes(rng);
    parts.push(ending(rng, probes, turns + 2));
    Draft { parameters: vec![2], locals: 2, returns: vec![], parts }
}

/// A call whose results borrow from all its arguments.
fn many_by_call(rng: &mut Rng) -> Draft {
    let references = rng.between(6, 13);
    let results = rng.between(4, 8);
    let mut code: Vec<Instruction> = (0..references as u8).map(CopyLoc).collect();
    code.push(call(references, &[], &vec![1; results]));
    for _ in 0..rng.between(0, 4) {
        let l = rng.below(references) as u8;
        match rng.below(4) {
            0 => code.extend([CopyLoc(l), field(rng.below(3), false), StLoc(15)]),
            1 => code.extend([CopyLoc(l), StLoc(15)]),
            2 => code.extend([MoveLoc(l), StLoc(l)]),
            _ => code.extend([CopyLoc(l), CopyLoc(l), call(2, &[], &[1]), StLoc(14)]),
        }
    }
    code.extend(vec![Pop; results]);
    code.push(Ret);
    let parameters = (0..references).map(|_| rng.between(1, 2) as u8).collect();
    Draft { parameters, locals: 16, returns: vec![], parts: vec![part(code, &[])] }
}

/// Many pairs get an edge from each of many states.
fn many_by_join(rng: &mut Rng) -> Draft {
    let n = rng.between(6, 13);
    let pairs = rng.between(5, 14);
    let code = move |_: &mut Rng, at: usize| {
        (0..pairs).flat_map(|pair| [CopyLoc(0), field(at * 20 + pair, true), StLoc(1 + pair as u8)]).collect()
    };
    let probes = probes(rng);
    let last = ending(rng, probes, n + 1);
    let parts = fan(rng, n, code, last);
    Draft { parameters: vec![2], locals: 15, returns: vec![], parts }
}

/// A local that is a mutable reference in one state, an immutable one, a value or absent in another.
fn mutability(rng: &mut Rng) -> Draft {
    let kinds = rng.pick(&[7, 11]);
    let code = move |rng: &mut Rng, _: usize| match rng.below(kinds) {
        0..=2 => vec![CopyLoc(0), StLoc(1)],
        3 | 4 => vec![CopyLoc(0), FreezeRef, StLoc(1)],
        5 => vec![local(2, false), StLoc(1)],
        6 => vec![local(2, true), StLoc(1)],
        7 | 8 => vec![LOAD, StLoc(3), CopyLoc(0), StLoc(1)],
        _ => vec![CopyLoc(0), StLoc(3), CopyLoc(0), StLoc(1)],
    };
    let end = match rng.below(5) {
        0 => vec![CopyLoc(1), FreezeRef, Pop],
        1 => vec![LOAD, CopyLoc(1), WriteRef],
        2 => vec![CopyLoc(1), ReadRef, Pop],
        3 => vec![MoveLoc(1), call(1, &[], &[2]), Pop],
        _ => vec![CopyLoc(1), field(1, true), Pop],
    };
    let n = rng.between(2, 4);
    let last = ending(rng, end, n + 1);
    let parts = fan(rng, n, code, last);
    let mut draft = Draft { parameters: vec![2], locals: 4, returns: vec![], parts };
    draft.parts[0].code.splice(0..0, [LOAD, StLoc(2)]);
    draft
}

/// Two states are joined: one lacks references in the middle of paths, so that their release makes longer paths, and
/// may have a value where the other has a reference.
fn lacking(rng: &mut Rng) -> Draft {
    let mut locals = [1, 2, 3, 4];
    shuffle(rng, &mut locals);
    let [first, second, end, mixed] = locals.map(|l| l as u8);
    let mut path = |from: u8, to: u8| {
        let fields = vec![field(rng.below(2), true); rng.between(1, 6)];
        [vec![CopyLoc(from)], fields, vec![StLoc(to)]].concat()
    };
    let mut all = [path(0, first), path(first, second), path(second, end)].concat();
    all.extend([CopyLoc(0), StLoc(mixed)]);
    let mut other = if rng.percent(50) { vec![LOAD, StLoc(mixed)] } else { vec![] };
    for l in [first, second, end] {
        if rng.percent(25) {
            other.extend([CopyLoc(0), field(3, true), StLoc(l)])
        }
    }
    let (one, two) = if rng.percent(50) { (all, other) } else { (other, all) };
    let probes = probes(rng);
    let last = ending(rng, probes, 4);
    let parts = vec![part(vec![LOAD, TAKE], &[1, 2]), part(one, &[3]), part(two, &[3]), last];
    Draft { parameters: vec![2], locals: 5, returns: vec![], parts }
}

/// A stack of about sixteen operands.
fn operands(rng: &mut Rng) -> Draft {
    let mut code = vec![];
    let mut height = 0;
    let goal = rng.between(14, 18);
    while height < goal {
        let n = rng.between(1, 8).min(goal - height);
        let token = rng.below(3) as u8;
        match rng.below(4) {
            0 => code.push(call(0, &[], &vec![token; n])),
            1 => code.push(Values { takes: 0, pushes: n as u16, token }),
            2 => code.extend(vec![CopyLoc(0); n]),
            _ => code.extend(vec![LOAD; n]),
        }
        height += n
    }
    code.extend(vec![Pop; goal]);
    code.push(Ret);
    Draft { parameters: vec![1], locals: 1, returns: vec![], parts: vec![part(code, &[])] }
}

/// Loops in loops, in which what a local borrows goes from local to local. Local 0 lends; the next ones take, and
/// the last one is a value. `probing` in a hundred steps might fail.
pub fn flows(rng: &mut Rng, probing: usize) -> Draft {
    let references = rng.between(4, 7);
    let value = references as u8;
    let n = rng.between(5, 16);
    let step = |rng: &mut Rng| {
        let (from, to) = (rng.below(references) as u8, rng.between(1, references - 1) as u8);
        if rng.percent(probing) {
            return match rng.below(4) {
                0 => vec![CopyLoc(0), ReadRef, Pop],
                1 => vec![LOAD, CopyLoc(from), WriteRef],
                2 => vec![MoveLoc(to), Pop],
                _ => vec![CopyLoc(0), field(7, true), StLoc(to)],
            };
        }
        match rng.below(8) {
            0 => vec![CopyLoc(0), field(rng.below(3), false), StLoc(to)],
            1 => vec![CopyLoc(from), call(1, &[], &[1]), StLoc(to)],
            2 => vec![local(value, false), StLoc(to)],
            _ => vec![CopyLoc(from), StLoc(to)],
        }
    };
    let mut parts: Vec<Part> = (0..n)
        .map(|at| {
            let mut code: Vec<Instruction> = (0..rng.between(1, 2)).flat_map(|_| step(rng)).collect();
            code.extend([LOAD, TAKE]);
            let back = rng.below(at + 1);
            part(code, &if rng.percent(50) { [back, at + 1] } else { [at + 1, back] })
        })
        .collect();
    parts[n - 1] = part(vec![Ret], &[]);
    let start = (1..value).flat_map(|l| [CopyLoc(0), FreezeRef, StLoc(l)]);
    parts[0].code.splice(0..0, [LOAD, StLoc(value)].into_iter().chain(start));
    Draft { parameters: vec![2], locals: value + 1, returns: vec![], parts }
}

/// References that change places at the end of a block with a successor.
pub fn exchange(rng: &mut Rng) -> Draft {
    let references = rng.between(2, 5);
    let locals = references + 1;
    let mut from: Vec<usize> = (0..references).collect();
    let mut to: Vec<usize> = (0..locals).collect();
    shuffle(rng, &mut from);
    shuffle(rng, &mut to);
    let moved = rng.between(1, references);
    let mut code: Vec<Instruction> = from[..moved].iter().map(|l| MoveLoc(*l as u8)).collect();
    code.extend(to[..moved].iter().map(|l| StLoc(*l as u8)));
    let mut parts = vec![part(code, &[1])];
    let l = rng.below(locals) as u8;
    let first = vec![CopyLoc(l), field(1, true), StLoc(l)];
    match rng.below(3) {
        0 => parts.push(part([first, vec![Ret]].concat(), &[])),
        1 => parts.push(part([first, vec![NOTHING]].concat(), &[0])),
        _ => parts.push(part(vec![LOAD, TAKE], &[])),
    }
    if rng.percent(12) {
        parts.truncate(1);
        parts[0].successors.clear()
    }
    if rng.percent(30) {
        let lent = rng.below(references) as u8;
        parts[0].code.splice(0..0, [CopyLoc(lent), field(2, true), StLoc(locals as u8 - 1)]);
    }
    let mut held: Vec<Option<usize>> = (0..locals).map(|l| (l < references).then_some(l)).collect();
    from[..moved].iter().for_each(|l| held[*l] = None);
    to.iter().zip(from[..moved].iter().rev()).for_each(|(l, name)| held[*l] = Some(*name));
    let below = |l: usize| held[l].is_some_and(|name| name < l);
    let crosses = (0..locals).any(|l| below(l) && held.contains(&Some(l)));
    let mut draft = Draft { parameters: vec![2; references], locals: locals as u8, returns: vec![], parts };
    if crosses && !draft.parts[0].successors.is_empty() {
        let present: Vec<u8> = (0..locals).filter(|l| held[*l].is_some()).map(|l| l as u8).collect();
        crossing(rng, &mut draft, &present)
    }
    draft
}

/// What a crossing does to mutability and edges shows in the answer: references of both kinds, a part before that lends
/// fields of some to others, and uses in the part after. No step before the crossing fails, so the run comes to it.
fn crossing(rng: &mut Rng, draft: &mut Draft, present: &[u8]) {
    let references = draft.parameters.len();
    draft.parameters.iter_mut().for_each(|token| *token = rng.pick(&[1, 2, 2]));
    let after = &mut draft.parts[1];
    after.code = (0..rng.between(1, 3)).flat_map(|_| used(rng, present)).collect();
    after.code.push(if after.successors.is_empty() { Ret } else { NOTHING });
    let lend = |number: usize| {
        let from = rng.below(references);
        let to = (from + rng.between(1, references - 1)) % references;
        [CopyLoc(from as u8), field(number, rng.percent(60)), StLoc(to as u8)]
    };
    let before: Vec<Instruction> = (1..=3).flat_map(lend).collect();
    draft.parts.iter_mut().flat_map(|part| &mut part.successors).for_each(|to| *to += 1);
    draft.parts.insert(0, part(before, if rng.percent(30) { &[1, 2] } else { &[1] }))
}

fn used(rng: &mut Rng, present: &[u8]) -> Vec<Instruction> {
    let l = rng.pick(present);
    match rng.below(8) {
        0..=2 => vec![LOAD, CopyLoc(l), WriteRef],
        3 => vec![CopyLoc(l), ReadRef, Pop],
        4 => vec![CopyLoc(l), FreezeRef, Pop],
        5 => vec![CopyLoc(l), field(rng.between(1, 3), rng.percent(50)), Pop],
        6 => vec![MoveLoc(l), call(1, &[], &[2]), StLoc(l)],
        _ => vec![MoveLoc(l), Pop],
    }
}

fn shuffle(rng: &mut Rng, items: &mut [usize]) {
    for at in (1..items.len()).rev() {
        items.swap(at, rng.below(at + 1))
    }
}
