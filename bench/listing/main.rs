// Times the listing reader on the largest listing and on one of 926 bytes. See ../README.md.
use std::hint::black_box;
use std::time::Instant;

extern "C" {
    fn listing_number(s: *const u8, len: usize) -> u8;
}

fn record(kind: u16, body: &[u8]) -> Vec<u8> {
    let mut r = vec![body.len() as u8, (body.len() >> 8) as u8, kind as u8, (kind >> 8) as u8];
    r.extend_from_slice(body);
    r
}

fn block(entry: u16, exit: u16, successors: &[u16]) -> Vec<u8> {
    let mut b = vec![entry as u8, (entry >> 8) as u8, exit as u8, (exit >> 8) as u8, successors.len() as u8];
    for s in successors {
        b.extend_from_slice(&s.to_le_bytes());
    }
    record(2, &b)
}

// 512 instructions and 16 blocks, as many calls with 16 numbers and 8 tokens as there is room for.
fn largest() -> (Vec<u8>, usize) {
    let mut s = record(1, &[vec![16, 16], vec![2; 16], vec![8], vec![1; 8]].concat());
    for b in 0..16u16 {
        let next = if b < 15 { vec![0, 32 * (b + 1)] } else { vec![] };
        s.extend(block(32 * b, 32 * b + 31, &next));
    }
    let call = record(22, &[vec![16, 16], vec![7; 32], vec![8], vec![2; 8]].concat());
    for k in 0..512 {
        s.extend(if k == 511 { record(23, &[]) } else { call.clone() });
    }
    (s, 1 + 16 + 512)
}

// Loads, stores, copies, borrows and drops up to 926 bytes.
fn usual() -> (Vec<u8>, usize) {
    let mut code = Vec::new();
    for k in 0..4u8 {
        code.push(record(24, &[0, 0, 1, 0, 0]));
        code.push(record(13, &[k]));
    }
    let acts = [vec![record(11, &[1]), record(10, &[])], vec![record(18, &[2, 1]), record(10, &[])], vec![record(18, &[3, 1]), record(19, &[0, 0, 1]), record(10, &[])]];
    let size = |c: &Vec<Vec<u8>>| 7 + 9 + 4 + c.iter().map(|r| r.len()).sum::<usize>();
    let mut k = 0;
    while size(&code) + acts[k % 3].concat().len() <= 926 {
        code.extend(acts[k % 3].clone());
        k += 1;
    }
    while size(&code) + 4 <= 926 {
        code.push(record(10, &[]));
    }
    code.push(record(23, &[]));
    let mut s = record(1, &[0, 4, 0]);
    s.extend(block(0, code.len() as u16 - 1, &[]));
    s.extend(code.concat());
    let records = 2 + code.len();
    (s, records)
}

fn time(name: &str, s: &[u8], records: usize) {
    let number = unsafe { listing_number(s.as_ptr(), s.len()) };
    assert_eq!(number, 0, "{name} is refused");
    let mut best = f64::MAX;
    for _ in 0..5000 {
        let start = Instant::now();
        for _ in 0..4 {
            black_box(unsafe { listing_number(black_box(s.as_ptr()), s.len()) });
        }
        best = best.min(start.elapsed().as_nanos() as f64 / 4.0);
    }
    println!("{name}: {} bytes, {records} records, {:.2} us, {:.1} ns a record", s.len(), best / 1000.0, best / records as f64);
}

fn main() {
    let (s, n) = usual();
    time("usual", &s, n);
    let (s, n) = largest();
    time("largest", &s, n);
}
