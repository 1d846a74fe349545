//! Answers, and bytes as they are printed.

/// What our `verify` answers in seven words: 0 accepted, 1 violation, 2 refused, 3 an empty cell; its number; its place;
/// the visits; how many sets the run blurred, the low word first (a visit or a join that is refused counts none); and,
/// after a violation, the offset at which what it fails on was borrowed, else 0.
#[derive(Clone, Copy, Debug, Eq, Hash, Ord, PartialEq, PartialOrd)]
pub struct Answer {
    pub kind: u32,
    pub number: u32,
    pub place: u32,
    pub visits: u32,
    pub blurred: u64,
    pub borrowed_at: u32,
}

pub const WORDS: usize = 7;

impl Answer {
    pub fn words(&self) -> [u32; WORDS] {
        let Answer { kind, number, place, visits, blurred, borrowed_at } = *self;
        [kind, number, place, visits, blurred as u32, (blurred >> 32) as u32, borrowed_at]
    }

    pub fn of(words: [u32; WORDS]) -> Answer {
        let [kind, number, place, visits, low, high, borrowed_at] = words;
        Answer { kind, number, place, visits, blurred: (high as u64) << 32 | low as u64, borrowed_at }
    }
}

pub fn hex(bytes: &[u8]) -> String {
    bytes.iter().map(|b| format!("{b:02x}")).collect()
}
