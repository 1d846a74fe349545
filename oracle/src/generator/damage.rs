//! Byte strings around the exporter's refusals.

use super::{conflicts, draft::any_instruction, typed, Rng};
use crate::listing::{self, write_instruction, Block, Instruction, Routine};

type Record = (u16, Vec<u8>);

fn records(listing: &[u8]) -> Vec<Record> {
    let mut all = vec![];
    let mut rest = listing;
    while let [a, b, c, d, ..] = *rest {
        let end = 4 + u16::from_le_bytes([a, b]) as usize;
        all.push((u16::from_le_bytes([c, d]), rest[4..end].to_vec()));
        rest = &rest[end..]
    }
    all
}

fn bytes(records: &[Record]) -> Vec<u8> {
    let one = |(kind, body): &Record| {
        let head = [(body.len() as u16).to_le_bytes(), kind.to_le_bytes()].concat();
        [head, body.clone()].concat()
    };
    records.iter().flat_map(one).collect()
}

pub fn listing(rng: &mut Rng) -> Vec<u8> {
    let whole = match rng.below(3) {
        0 => typed::one_block(rng).listing(rng),
        1 => typed::blocks(rng).listing(rng),
        _ => conflicts::draft(rng).listing(rng),
    };
    match rng.below(12) {
        0 if rng.percent(50) => mixed(rng, &whole),
        0 => cut(rng, whole),
        1 => one_byte(rng, whole),
        2 => limits(rng),
        3 | 4 => in_a_body(rng, &whole),
        5 | 6 => of_a_block(rng, &whole),
        7 => of_a_call(rng, &whole),
        8 => of_the_function(rng, &whole),
        _ => of_records(rng, &whole),
    }
}

fn cut(rng: &mut Rng, mut listing: Vec<u8>) -> Vec<u8> {
    if rng.percent(60) {
        listing.truncate(rng.below(listing.len()))
    } else {
        listing.extend((0..rng.between(1, 5)).map(|_| rng.below(30) as u8))
    }
    listing
}

fn one_byte(rng: &mut Rng, mut listing: Vec<u8>) -> Vec<u8> {
    let at = rng.below(listing.len());
    listing[at] = match rng.below(3) {
        0 => rng.below(256) as u8,
        1 => listing[at].wrapping_add(1),
        _ => listing[at].wrapping_sub(1),
    };
    listing
}

/// One number of a routine at its limit or past it.
fn limits(rng: &mut Rng) -> Vec<u8> {
    let mut routine = Routine { locals: rng.pick(&[15, 16, 17, 255]), ..Routine::default() };
    routine.parameters = vec![0; rng.pick(&[0, 15, 16, 17])];
    routine.returns = vec![0; rng.pick(&[0, 0, 8, 9])];
    let length = rng.pick(&[1, 1, 1, 16, 17, 511, 512, 513]);
    routine.code = vec![Instruction::Values { takes: 0, pushes: 0, token: 0 }; length];
    let blocks = rng.pick(&[1, 1, 15, 16, 17]).min(length);
    let exit = |at: usize| if at + 1 == blocks { length - 1 } else { at };
    let block = |at: usize| Block { entry: at as u16, exit: exit(at) as u16, successors: vec![] };
    routine.blocks = (0..blocks).map(block).collect();
    let mut out = listing::write(&routine);
    if rng.percent(3) {
        out.resize(rng.pick(&[65_535, 65_536, 65_537, 70_000]), 0)
    }
    out
}

fn in_a_body(rng: &mut Rng, listing: &[u8]) -> Vec<u8> {
    let mut records = records(listing);
    let at = rng.below(records.len());
    let body = &mut records[at].1;
    match rng.below(4) {
        0 => body.push(rng.below(3) as u8),
        1 => {
            body.pop();
        }
        _ if body.is_empty() => (),
        _ => {
            let byte = rng.below(body.len());
            body[byte] = rng.pick(&[0, 1, 2, 3, 4, 255])
        }
    }
    bytes(&records)
}

/// A place behind the blocks.
fn in_the_code(rng: &mut Rng, records: &[Record]) -> usize {
    rng.between(1 + records.iter().filter(|r| r.0 == 2).count(), records.len())
}

/// A block among the instructions or behind them, sometimes with a body that does not fit.
fn mixed(rng: &mut Rng, listing: &[u8]) -> Vec<u8> {
    let mut records = records(listing);
    let blocks: Vec<usize> = (0..records.len()).filter(|r| records[*r].0 == 2).collect();
    let mut block = records.remove(rng.pick(&blocks));
    if rng.percent(25) {
        block.1.pop();
    }
    let at = in_the_code(rng, &records);
    records.insert(at, block);
    bytes(&records)
}

fn of_a_block(rng: &mut Rng, listing: &[u8]) -> Vec<u8> {
    let mut records = records(listing);
    let blocks: Vec<usize> = (0..records.len()).filter(|r| records[*r].0 == 2).collect();
    let (one, other) = (rng.pick(&blocks), rng.pick(&blocks));
    let entry = records[other].1[..2].to_vec();
    let body = &mut records[one].1;
    match rng.below(7) {
        0 => body[0] = body[0].wrapping_add(1),
        1 => body[0] = body[0].wrapping_sub(1),
        2 => body[2] = body[2].wrapping_add(1),
        3 => body[2] = body[2].wrapping_sub(1),
        4 if body[4] < 2 => {
            body[4] += 1;
            body.extend(entry)
        }
        5 if body[4] > 0 => body[5] = body[5].wrapping_add(1),
        _ => records.swap(one, other),
    }
    bytes(&records)
}

fn of_a_call(rng: &mut Rng, listing: &[u8]) -> Vec<u8> {
    let mut records = records(listing);
    let mut words = |n: usize| -> Vec<u16> { (0..n).map(|_| rng.below(4) as u16).collect() };
    let acquired = words(16);
    let count = rng.pick(&[0, 1, 16, 17]);
    let call = Instruction::Call {
        parameters: rng.pick(&[0, 1, 16, 17]),
        acquired: acquired.into_iter().cycle().take(count).collect(),
        returns: vec![rng.below(3) as u8; rng.pick(&[0, 1, 8, 9])],
    };
    let mut out = vec![];
    write_instruction(&call, &mut out);
    let at = in_the_code(rng, &records);
    records.insert(at, (22, out[4..].to_vec()));
    bytes(&records)
}

fn of_the_function(rng: &mut Rng, listing: &[u8]) -> Vec<u8> {
    let mut records = records(listing);
    let body = &mut records[0].1;
    match rng.below(4) {
        0 => body[1] = rng.pick(&[0, 1, 2, 16, 17]),
        1 => body[0] = rng.pick(&[0, 1, 2, 17]),
        2 => {
            let (returns, parameters) = (rng.pick(&[7, 8, 9]), body[0] as usize);
            body.truncate(2 + parameters);
            body.push(returns);
            body.extend(vec![0; returns as usize])
        }
        _ => {
            let again = records[0].clone();
            let at = rng.between(1, records.len());
            records.insert(at, again)
        }
    }
    bytes(&records)
}

fn of_records(rng: &mut Rng, listing: &[u8]) -> Vec<u8> {
    let mut records = records(listing);
    let at = rng.below(records.len());
    match rng.below(8) {
        0 => records[at].0 = rng.pick(&[0, 1, 2, 3, 5, 9, 10, 28, 30, 31, 256, 266, 65_535]),
        1 => {
            records.remove(at);
        }
        2 => records.insert(at, records[at].clone()),
        3 => {
            let alike = |r: &usize| (records[*r].0 == 2) == (records[at].0 == 2);
            let others: Vec<usize> = (0..records.len()).filter(alike).collect();
            records.swap(at, rng.pick(&others))
        }
        4 => {
            let at = in_the_code(rng, &records);
            records.insert(at, (23, vec![]))
        }
        5 => records.retain(|r| r.0 != 2),
        6 => {
            let mut out = vec![];
            write_instruction(&any_instruction(rng, 17), &mut out);
            let at = in_the_code(rng, &records);
            records.insert(at, (u16::from_le_bytes([out[2], out[3]]), out[4..].to_vec()))
        }
        _ => records[at].0 = rng.between(10, 27) as u16,
    }
    bytes(&records)
}
